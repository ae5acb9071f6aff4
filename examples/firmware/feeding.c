#include "feeding.h"

enum { CONTROL_NEW_SET_POINT = 0x0010, TARGET_FRAME_LENGTH = 6 };

/* Operation enabled in mode 1: elsewhere the node holds no set-point. */
static bool takes_set_points(const struct node *node)
{
    return !node->is_stopped && cendurak_drive(node->state) == CENDURAK_DRIVE_OPERATION_ENABLED
           && cendurak_mode(node->state) == CENDURAK_MODE_PROFILE_POSITION;
}

/* What the first step has to find. */
static bool is_ready(const struct node *node)
{
    return takes_set_points(node) && cendurak_set_points(node->state) == 0
           && (cendurak_control_word(node->dict) & CONTROL_NEW_SET_POINT) == 0;
}

enum feeding_start feeding_start(struct feeding *feeding, const struct node *node, uint16_t identifier, const int32_t *lengths, uint64_t count)
{
    if (feeder_start(lengths, count) != FEEDER_ACCEPTED)
        return FEEDING_TOO_LONG;
    if (!is_ready(node))
        return FEEDING_NOT_READY;
    *feeding = (struct feeding){.stage = FEEDING_RUNNING,
                                .lengths = lengths,
                                .count = count,
                                .identifier = identifier,
                                .control_word = cendurak_control_word(node->dict),
                                .target = cendurak_target_position(node->dict)};
    return FEEDING_STARTED;
}

/* False: the feeder refused the step, of which nothing is to be written. No list that was started comes to that. */
static bool step(struct feeding *feeding, const struct node *node)
{
    uint64_t answer = feeder_step(feeding->lengths, feeding->count, feeding->position, cendurak_status_word(node->dict));

    if (feeder_refusal(answer) != FEEDER_ACCEPTED)
        return false;
    feeding->position = feeder_position(answer);
    feeding->control_word = feeder_control_word(answer);
    feeding->target = feeder_target(answer);
    feeding->is_owed = true;
    return true;
}

/* The last answer as receive PDO 3. */
static struct node_frame target_frame(const struct feeding *feeding)
{
    struct node_frame frame = {.identifier = feeding->identifier, .length = TARGET_FRAME_LENGTH};
    uint64_t bytes = feeding->control_word + ((uint64_t)(uint32_t)feeding->target << 16);

    for (uint32_t i = 0; i < TARGET_FRAME_LENGTH; i++)
        frame.data[i] = (uint8_t)(bytes >> (8 * i));
    return frame;
}

/* The dictionary has the last word: an accepted call may have dropped the frame, as outside Operational. */
static bool is_written(const struct feeding *feeding, const struct node *node)
{
    return cendurak_control_word(node->dict) == feeding->control_word && cendurak_target_position(node->dict) == feeding->target;
}

static void hand_in(struct feeding *feeding, struct node *node)
{
    struct node_frame frame = target_frame(feeding);
    bool is_accepted = node_hand(node, &frame);

    feeding->is_owed = !(is_accepted && is_written(feeding, node));
    feeding->handed_again += feeding->is_owed;
}

/* Whether what the feeder asks for still holds, as far as it can be seen. */
static enum feeding_stage next_stage(const struct feeding *feeding, const struct node *node)
{
    if (!takes_set_points(node))
        return FEEDING_DRIVE_LEFT;
    return feeding->is_owed || is_written(feeding, node) ? FEEDING_RUNNING : FEEDING_OVERWRITTEN;
}

bool feeding_run(struct feeding *feeding, struct node *node)
{
    bool has_stepped = false;

    if (feeding->stage == FEEDING_RUNNING)
        feeding->stage = next_stage(feeding, node);
    if (feeding->stage != FEEDING_RUNNING)
        return false;
    if (!feeding->is_owed)
        has_stepped = step(feeding, node);
    if (feeding->is_owed)
        hand_in(feeding, node);
    return has_stepped;
}
