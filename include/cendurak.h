/*
 * Cendurak: the bus side of a servo amplifier, one CANopen node (CiA 301, CiA 402).
 *
 * Three calls work on three buffers that the caller owns: the node's state, its object dictionary, and the output. A fourth, the load of a
 * file, works on the first two. Each call answers on every input: whatever lies in the buffers, and whatever their lengths are, it returns,
 * and a refused call leaves every byte of all of them as it was.
 *
 * What a caller owes: a pointer and a length that belong together (a null pointer with length 0 is fine), and buffers that do not overlap.
 * Nothing else: no order of calls, no cleared buffers, no alignment.
 *
 * One call at a time on the same buffers. There is no hidden state: two sets of buffers are two nodes.
 */
#ifndef CENDURAK_H
#define CENDURAK_H

#include <stdint.h>

#ifdef __cplusplus
extern "C" {
#endif

/*
 * The version, of this header, of the archive that it belongs to and of the data sheet (cendurak.eds): major and minor number. The major one is
 * raised where a caller has to be changed, the minor one with every other release (CHANGELOG.md). As one number it reads as CiA 301 writes
 * revisions: the major number from bit 16 on.
 */
#define CENDURAK_VERSION_MAJOR 1u
#define CENDURAK_VERSION_MINOR 7u
#define CENDURAK_VERSION (65536u * CENDURAK_VERSION_MAJOR + CENDURAK_VERSION_MINOR)

/* ---- places and lengths: tools/header writes them from the source */

/* The lengths of the three buffers. State and dictionary have just these; output has this many bytes or more. */
#define CENDURAK_STATE_LEN 399u
#define CENDURAK_DICT_LEN 391u
#define CENDURAK_OUT_LEN 66u

/* The most frames that a call sends, and the bytes of each in the output. */
#define CENDURAK_MOST_FRAMES 6u
#define CENDURAK_FRAME_LEN 11u

/* In a frame, behind its identifier: how many data bytes it has, and the first of them. */
#define CENDURAK_FRAME_AT_LENGTH 2u
#define CENDURAK_FRAME_AT_DATA 3u

/* The first and the last node-ID. */
#define CENDURAK_FIRST_NODE 1u
#define CENDURAK_LAST_NODE 127u

/* Receive PDOs, and in the dictionary the identifier of the first one (1400h:1); the next one's stands so many bytes behind it. */
#define CENDURAK_RECEIVE_PDOS 4u
#define CENDURAK_DICT_AT_RECEIVE_IDENTIFIER 21u
#define CENDURAK_RECEIVE_IDENTIFIER_STEP 6u

/* In the dictionary: 603Fh, 6040h, 6041h, 6061h, 6064h, 6067h, 6068h, 606Ch, 607Ah, 607Dh:1, 607Dh:2, 6081h, 6083h, 6084h and 60FFh. */
#define CENDURAK_DICT_AT_ERROR_CODE 332u
#define CENDURAK_DICT_AT_CONTROL_WORD 334u
#define CENDURAK_DICT_AT_STATUS_WORD 336u
#define CENDURAK_DICT_AT_MODE_DISPLAY 339u
#define CENDURAK_DICT_AT_POSITION 340u
#define CENDURAK_DICT_AT_POSITION_WINDOW 344u
#define CENDURAK_DICT_AT_WINDOW_TIME 348u
#define CENDURAK_DICT_AT_VELOCITY 350u
#define CENDURAK_DICT_AT_TARGET_POSITION 358u
#define CENDURAK_DICT_AT_MINIMUM_POSITION 363u
#define CENDURAK_DICT_AT_MAXIMUM_POSITION 367u
#define CENDURAK_DICT_AT_PROFILE_VELOCITY 371u
#define CENDURAK_DICT_AT_ACCELERATION 375u
#define CENDURAK_DICT_AT_DECELERATION 379u
#define CENDURAK_DICT_AT_TARGET_VELOCITY 383u

/* In the state: what the accessors below read. */
#define CENDURAK_STATE_AT_NODE_ID 0u
#define CENDURAK_STATE_AT_NMT 1u
#define CENDURAK_STATE_AT_VOLTAGE 2u
#define CENDURAK_STATE_AT_TRANSFER 5u
#define CENDURAK_STATE_AT_DRIVE 15u
#define CENDURAK_STATE_AT_MODE 16u
#define CENDURAK_STATE_AT_CAUSE 19u
#define CENDURAK_STATE_AT_STAY 20u
#define CENDURAK_STATE_AT_STORE 22u
#define CENDURAK_STATE_AT_ACTIVE_TARGET 23u
#define CENDURAK_STATE_AT_ACTIVE_VELOCITY 27u
#define CENDURAK_STATE_AT_ACTIVE_ACCELERATION 31u
#define CENDURAK_STATE_AT_ACTIVE_DECELERATION 35u

/* ---- end of places and lengths */

/* The refusals, lowest first. */
enum cendurak_refusal_number {
    CENDURAK_ACCEPTED = 0,
    CENDURAK_BAD_DICT_LEN = 1,  /* the dictionary is not CENDURAK_DICT_LEN bytes */
    CENDURAK_BAD_OUT_LEN = 2,   /* the output has under CENDURAK_OUT_LEN bytes */
    CENDURAK_BAD_NODE_ID = 3,   /* power-up with a node-ID outside CENDURAK_FIRST_NODE..CENDURAK_LAST_NODE */
    CENDURAK_NOT_SOUND = 4,     /* state bytes of another length, in power-up too, or that are no state; state and dictionary not sound */
    CENDURAK_BAD_FRAME = 5,     /* an identifier over 7FFh, or more than eight data bytes */
    CENDURAK_BAD_EVENT = 6,     /* an unknown event, a wrong argument size, a voltage flag not 0 or 1, fault code 0 */
    CENDURAK_OUT_OF_PLACE = 7,  /* an event that cannot happen now */
    /* 8 is the bench program's. Of a load: */
    CENDURAK_WRONG_STATE = 9,         /* not in Pre-operational, or the drive neither Not ready nor Switch on disabled */
    CENDURAK_FILE_TOO_SHORT = 10,     /* a file of under four bytes */
    CENDURAK_TOO_MANY_ENTRIES = 11,   /* a count over 512 */
    CENDURAK_FILE_MISFIT = 12,        /* a file cut short, or with bytes left over behind its last entry */
    CENDURAK_CONTROL_WORD_ENTRY = 13, /* an entry for 6040h, whatever its subindex */
    CENDURAK_ENTRY_ABORTED = 14       /* an entry that SDO would abort: the answer tells which one, and the abort code */
};

/* The events, with their arguments, little-endian. */
enum cendurak_event_number {
    CENDURAK_STARTED = 1,           /* none; only in Not ready */
    CENDURAK_QUICK_STOP_DONE = 2,   /* none; only in Quick stop active */
    CENDURAK_FAULT = 3,             /* error code (2, not 0), error register (1) */
    CENDURAK_REACTION_DONE = 4,     /* none; only in Fault reaction active */
    CENDURAK_FEEDBACK = 5,          /* position (4, signed), velocity (4, signed) */
    CENDURAK_SET_POINT_REACHED = 6, /* none; only while a set-point is active */
    CENDURAK_TICK = 7,              /* none; one millisecond went by */
    CENDURAK_CAUSE_GONE = 8,        /* none; only while a fault's cause is present */
    CENDURAK_VOLTAGE = 9            /* flag (1): 1 on, 0 off */
};

/*
 * The calls. Each but the load returns the refusal times 256 plus the number of frames that now stand in the output: take it apart with
 * cendurak_refusal and cendurak_frames.
 */

/* Power-up as node n. The state's bytes may hold anything. Sends the boot-up frame. */
uint32_t cendurak_power_up(uint8_t *state, uint64_t state_len, uint8_t *dict, uint64_t dict_len, uint8_t *out, uint64_t out_len, uint32_t n);

/* One frame of the bus: its identifier, and its data bytes. */
uint32_t cendurak_frame(uint8_t *state, uint64_t state_len, uint8_t *dict, uint64_t dict_len, uint8_t *out, uint64_t out_len,
                        uint32_t identifier, const uint8_t *data, uint64_t length);

/* One event of the amplifier: its number, and its arguments. */
uint32_t cendurak_event(uint8_t *state, uint64_t state_len, uint8_t *dict, uint64_t dict_len, uint8_t *out, uint64_t out_len,
                        uint32_t number, const uint8_t *args, uint64_t args_len);

/*
 * Loads a configuration: a concise DCF (CiA 302), which is a count (4), and for each entry index (2), subindex (1), size (4) and data, all
 * little-endian. tools/dcf writes such files, reads and tries them.
 *
 * When: in Pre-operational, with the drive Not ready or Switch on disabled, so best right behind power-up, and again behind each boot-up that
 * the node sends, since a reset by NMT takes the objects back to their defaults.
 *
 * What it does: the entries in order, each as an expedited SDO download of its bytes, which sees what those before it wrote. All of them or
 * nothing: where one is refused, state and dictionary keep every byte. It sends no frame, and a running SDO transfer goes on. A file of no
 * entries is accepted and changes nothing.
 *
 * It returns the refusal times 2^48, plus the number of the entry that failed times 2^32, plus its abort code: take it apart with
 * cendurak_load_refusal, cendurak_load_entry and cendurak_load_abort_code. It can be 1, 4, or 9 to 14; 9 to 13 are found before any entry is
 * tried. The file is only read.
 */
uint64_t cendurak_load(uint8_t *state, uint64_t state_len, uint8_t *dict, uint64_t dict_len, const uint8_t *file, uint64_t file_len);

/* The refusal in an answer; 0 is none. */
static inline uint32_t cendurak_refusal(uint32_t answer)
{
    return answer / 256u;
}

/* The number of frames in an answer. */
static inline uint32_t cendurak_frames(uint32_t answer)
{
    return answer % 256u;
}

/* The refusal in the answer of a load; 0 is none. */
static inline uint32_t cendurak_load_refusal(uint64_t answer)
{
    return (uint32_t)(answer >> 48);
}

/* With CENDURAK_ENTRY_ABORTED the number of the entry that failed, from 1, and its SDO abort code; with every other answer both are 0. */
static inline uint32_t cendurak_load_entry(uint64_t answer)
{
    return (uint32_t)(answer >> 32) & 0xFFFFu;
}

static inline uint32_t cendurak_load_abort_code(uint64_t answer)
{
    return (uint32_t)answer;
}

/* Two bytes, low byte first; four bytes; and four bytes as a signed value. */
static inline uint16_t cendurak_half(const uint8_t *bytes)
{
    return (uint16_t)(bytes[0] + 256u * bytes[1]);
}

static inline uint32_t cendurak_word(const uint8_t *bytes)
{
    return bytes[0] + 256u * bytes[1] + 65536u * bytes[2] + 16777216u * bytes[3];
}

static inline int32_t cendurak_signed(const uint8_t *bytes)
{
    uint32_t word = cendurak_word(bytes);
    return word < 0x80000000u ? (int32_t)word : -(int32_t)(0xFFFFFFFFu - word) - 1;
}

/* Frame i of the output, counted from 0: its identifier, how many data bytes it has, and where they stand. */
static inline uint16_t cendurak_identifier(const uint8_t *out, uint32_t i)
{
    return cendurak_half(out + CENDURAK_FRAME_LEN * i);
}

static inline uint8_t cendurak_length(const uint8_t *out, uint32_t i)
{
    return out[CENDURAK_FRAME_LEN * i + CENDURAK_FRAME_AT_LENGTH];
}

static inline const uint8_t *cendurak_data(const uint8_t *out, uint32_t i)
{
    return out + CENDURAK_FRAME_LEN * i + CENDURAK_FRAME_AT_DATA;
}

/* The status word, 6041h, as the dictionary holds it. */
static inline uint16_t cendurak_status_word(const uint8_t *dict)
{
    return cendurak_half(dict + CENDURAK_DICT_AT_STATUS_WORD);
}

/*
 * What the amplifier follows between two calls, read from the buffers that an accepted call left. docs/STATE.md tells what each byte of the
 * state is; the dictionary's entries are packed in rising order.
 */

/* The node-ID that it was powered up with. */
static inline uint8_t cendurak_node_id(const uint8_t *state)
{
    return state[CENDURAK_STATE_AT_NODE_ID];
}

/* The NMT states, and the node's own. */
enum cendurak_nmt_number {
    CENDURAK_NMT_PRE_OPERATIONAL = 0,
    CENDURAK_NMT_OPERATIONAL = 1,
    CENDURAK_NMT_STOPPED = 2
};

static inline uint8_t cendurak_nmt(const uint8_t *state)
{
    return state[CENDURAK_STATE_AT_NMT];
}

/* An SDO transfer by segments in progress. Every initiate ends it, also one that the firmware itself hands in. */
enum cendurak_transfer_number {
    CENDURAK_TRANSFER_NONE = 0,
    CENDURAK_TRANSFER_UPLOAD = 1,
    CENDURAK_TRANSFER_DOWNLOAD = 2
};

static inline uint8_t cendurak_transfer(const uint8_t *state)
{
    return state[CENDURAK_STATE_AT_TRANSFER];
}

/* The voltage flag, 0 or 1, as the last event 9 gave it. Power-up, by NMT too, puts it to 0: the firmware then has to tell it again. */
static inline uint8_t cendurak_voltage(const uint8_t *state)
{
    return state[CENDURAK_STATE_AT_VOLTAGE];
}

/* The drive states, and the axis's own. */
enum cendurak_drive_number {
    CENDURAK_DRIVE_NOT_READY = 0,
    CENDURAK_DRIVE_SWITCH_ON_DISABLED = 1,
    CENDURAK_DRIVE_READY_TO_SWITCH_ON = 2,
    CENDURAK_DRIVE_SWITCHED_ON = 3,
    CENDURAK_DRIVE_OPERATION_ENABLED = 4,
    CENDURAK_DRIVE_QUICK_STOP_ACTIVE = 5,
    CENDURAK_DRIVE_FAULT_REACTION_ACTIVE = 6,
    CENDURAK_DRIVE_FAULT = 7
};

static inline uint8_t cendurak_drive(const uint8_t *state)
{
    return state[CENDURAK_STATE_AT_DRIVE];
}

/* The modes, and the one that is in force (6061h). */
enum cendurak_mode_number {
    CENDURAK_MODE_NONE = 0,
    CENDURAK_MODE_PROFILE_POSITION = 1,
    CENDURAK_MODE_PROFILE_VELOCITY = 3
};

static inline uint8_t cendurak_mode(const uint8_t *state)
{
    return state[CENDURAK_STATE_AT_MODE];
}

/* Whether a fault's cause is present, 0 or 1: since event 3, until event 8. */
static inline uint8_t cendurak_cause(const uint8_t *state)
{
    return state[CENDURAK_STATE_AT_CAUSE];
}

/* How many set-points wait to be reached: 0, 1, or 2 with one queued. Event 6 is in place only where it is not 0. */
static inline uint32_t cendurak_set_points(const uint8_t *state)
{
    uint8_t kind = state[CENDURAK_STATE_AT_STORE];
    return kind < 2u ? 0u : kind - 1u;
}

/* A set-point as it was taken: the target, and 6081h, 6083h and 6084h of that moment. */
struct cendurak_set_point {
    int32_t target;
    uint32_t velocity, acceleration, deceleration;
};

/* The active set-point, which the axis is to move to. Only where cendurak_set_points is not 0. */
static inline struct cendurak_set_point cendurak_active_set_point(const uint8_t *state)
{
    struct cendurak_set_point active = {
        cendurak_signed(state + CENDURAK_STATE_AT_ACTIVE_TARGET), cendurak_word(state + CENDURAK_STATE_AT_ACTIVE_VELOCITY),
        cendurak_word(state + CENDURAK_STATE_AT_ACTIVE_ACCELERATION), cendurak_word(state + CENDURAK_STATE_AT_ACTIVE_DECELERATION)};
    return active;
}

/*
 * How many ticks the position has been inside the window: within 6067h of the active set-point's target, or of the target at rest. It stops at
 * 65,535, and is 0 outside. Bit 10 of the status word waits until it is cendurak_window_time.
 */
static inline uint16_t cendurak_stay(const uint8_t *state)
{
    return cendurak_half(state + CENDURAK_STATE_AT_STAY);
}

/* That window, 6067h, to both sides of the target; and the window time 6068h, in ticks. */
static inline uint32_t cendurak_position_window(const uint8_t *dict)
{
    return cendurak_word(dict + CENDURAK_DICT_AT_POSITION_WINDOW);
}

static inline uint16_t cendurak_window_time(const uint8_t *dict)
{
    return cendurak_half(dict + CENDURAK_DICT_AT_WINDOW_TIME);
}

/* Objects of the dictionary: error code 603Fh, control word 6040h, position 6064h, velocity 606Ch. */
static inline uint16_t cendurak_error_code(const uint8_t *dict)
{
    return cendurak_half(dict + CENDURAK_DICT_AT_ERROR_CODE);
}

static inline uint16_t cendurak_control_word(const uint8_t *dict)
{
    return cendurak_half(dict + CENDURAK_DICT_AT_CONTROL_WORD);
}

static inline int32_t cendurak_position(const uint8_t *dict)
{
    return cendurak_signed(dict + CENDURAK_DICT_AT_POSITION);
}

static inline int32_t cendurak_velocity(const uint8_t *dict)
{
    return cendurak_signed(dict + CENDURAK_DICT_AT_VELOCITY);
}

/* For profile position: target 607Ah, the limits 607Dh:1 and :2, of which the first is at most the second, and profile velocity 6081h. */
static inline int32_t cendurak_target_position(const uint8_t *dict)
{
    return cendurak_signed(dict + CENDURAK_DICT_AT_TARGET_POSITION);
}

static inline int32_t cendurak_minimum_position(const uint8_t *dict)
{
    return cendurak_signed(dict + CENDURAK_DICT_AT_MINIMUM_POSITION);
}

static inline int32_t cendurak_maximum_position(const uint8_t *dict)
{
    return cendurak_signed(dict + CENDURAK_DICT_AT_MAXIMUM_POSITION);
}

static inline uint32_t cendurak_profile_velocity(const uint8_t *dict)
{
    return cendurak_word(dict + CENDURAK_DICT_AT_PROFILE_VELOCITY);
}

/* For both profiles acceleration 6083h and deceleration 6084h; for profile velocity target velocity 60FFh. */
static inline uint32_t cendurak_acceleration(const uint8_t *dict)
{
    return cendurak_word(dict + CENDURAK_DICT_AT_ACCELERATION);
}

static inline uint32_t cendurak_deceleration(const uint8_t *dict)
{
    return cendurak_word(dict + CENDURAK_DICT_AT_DECELERATION);
}

static inline int32_t cendurak_target_velocity(const uint8_t *dict)
{
    return cendurak_signed(dict + CENDURAK_DICT_AT_TARGET_VELOCITY);
}

/* The identifiers of the services; that of a single node is this and its node-ID, but for NMT and SYNC. And the last one that a frame can have. */
enum cendurak_service_number {
    CENDURAK_NMT_COMMAND = 0x000,
    CENDURAK_SYNC = 0x080,
    CENDURAK_EMERGENCY = 0x080,
    CENDURAK_SDO_REPLY = 0x580,
    CENDURAK_SDO_REQUEST = 0x600,
    CENDURAK_HEARTBEAT = 0x700,
    CENDURAK_LAST_IDENTIFIER = 0x7FF
};

/*
 * The identifiers that the node serves, for the acceptance filters of a CAN controller: NMT, SYNC, its SDO requests and the valid receive PDOs.
 * Frames on all others send nothing and change nothing. Writes them into the list, and returns how many they are. The NMT state is not looked at:
 * behind the command that starts the node its first process frame may be the next one on the bus.
 *
 * The list changes where the identifier of a receive PDO (1400h:1 to 1403h:1) is written or set back: in Pre-operational alone, by SDO, by a load
 * and by resets. Where the filters are set before the frames of that answer are sent, no frame that a master sends upon them is missed.
 */
#define CENDURAK_MOST_SERVED (3u + CENDURAK_RECEIVE_PDOS)

static inline uint32_t cendurak_served(const uint8_t *state, const uint8_t *dict, uint16_t *identifiers)
{
    uint32_t count = 0;

    identifiers[count++] = CENDURAK_NMT_COMMAND;
    identifiers[count++] = CENDURAK_SYNC;
    identifiers[count++] = (uint16_t)(CENDURAK_SDO_REQUEST + cendurak_node_id(state));
    for (uint32_t i = 0; i < CENDURAK_RECEIVE_PDOS; i++) {
        uint32_t identifier = cendurak_word(dict + CENDURAK_DICT_AT_RECEIVE_IDENTIFIER + CENDURAK_RECEIVE_IDENTIFIER_STEP * i);
        if (identifier <= CENDURAK_LAST_IDENTIFIER) /* bit 31 is 1 where the PDO is not valid */
            identifiers[count++] = (uint16_t)identifier;
    }
    return count;
}

#ifdef __cplusplus
}
#endif

#endif
