"""What tools/trace is made of.

inputs    files and pipes, as they come          look      a trace as named, and a first look through it
records   bench records as bytes                 log       candump logs with events, as text
events    the amplifier's events in words        bench     the bench program and its output
eds       names, types and defaults of objects   words     numbers of CiA 301 and CiA 402 in words
node      what a trace tells about the node      segments  transfers by segments
dcf       concise DCF files as bytes             decode    a frame as a row of the trace
walk      a whole trace as rows                  readable  rows as text, with colour, as wide as the terminal
differ    the first difference of two traces     commands  the command line
"""
