"""What tools/dcf is made of.

lists     entries as a readable list, both ways  source    a file as a C array
trial     a file through the compiled node       verdict   what a load came to, in words
commands  the command line

Files as bytes, the data sheet, the node and numbers in words are those of tools/trace.
"""
