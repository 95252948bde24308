/* The blocks: each rule takes the resolved inputs and changes the block's own words. */
#include "record.h"

/* ---- inputs */

int32_t oracle_value(const int32_t *record, connector c) {
    int32_t value = 0;
    switch (c.class) {
    case INPUT:
        value = record[FIRST_I + c.number - 1];
        break;
    case HI:
        value = 1;
        break;
    case FLAG:
        value = record[FIRST_M + c.number - 1];
        break;
    case ANALOG_INPUT:
        value = record[FIRST_AI + c.number - 1];
        break;
    case ANALOG_FLAG:
        value = record[FIRST_AM + c.number - 1];
        break;
    case DIGITAL_BLOCK:
    case ANALOG_BLOCK:
        value = record[block_words(c.number) + OUTPUT];
        break;
    }
    return c.inverted ? 1 - value : value;
}

/* The block's inputs, in order; an unused one counts 1 for kinds 1 to 4 and 0 elsewhere. */
static void resolve(const uint8_t *content, const int32_t *record, int32_t *in) {
    const kind_rule *rule = &oracle_kind_rules[content[0]];
    for (unsigned i = 0; i < rule->digital + rule->analog; i++) {
        const connector c = connector_at(content + 2 + 3 * i);
        in[i] = c.class == UNUSED ? content[0] <= NAND_EDGE : oracle_value(record, c);
    }
}

/* ---- times */

static int32_t ticks(int32_t base, int32_t setting) {
    static const int32_t ticks_of_one[3] = {1, 100, 6000};
    return ticks_of_one[base] * setting;
}

int32_t oracle_ticks(const uint8_t *content) {
    const kind_rule *rule = &oracle_kind_rules[content[0]];
    return ticks(parameter_at(rule, content, 0), parameter_at(rule, content, 1));
}

static int32_t least(int32_t a, int32_t b) { return a < b ? a : b; }

/* ---- delays */

static void on_delay(int32_t *own, int32_t trg, int32_t t, int32_t e) {
    const bool stays = trg && own[REMEMBERED];
    own[NUMBER] = stays ? least(t, own[NUMBER] + e) : 0;
    own[OUTPUT] = trg && own[NUMBER] == t;
    own[REMEMBERED] = trg;
}

static void off_delay(int32_t *own, int32_t trg, int32_t r, int32_t t, int32_t e) {
    const bool rose = !own[REMEMBERED] && trg, fell = own[REMEMBERED] && !trg;
    own[REMEMBERED] = trg;
    if (r) {
        own[OUTPUT] = own[NUMBER] = 0;
    } else if (trg) {
        if (rose)
            own[OUTPUT] = 1;
        own[NUMBER] = 0;
    } else if (fell) {
        own[OUTPUT] = own[OUTPUT] && t > 0;
        own[NUMBER] = 0;
    } else if (own[OUTPUT]) {
        own[NUMBER] = least(t, own[NUMBER] + e);
        if (own[NUMBER] == t)
            own[OUTPUT] = own[NUMBER] = 0;
    }
}

/* ---- the stairway switch */

/* T, T! and T!L in ticks; in the remembered word a running switch has 2 beside Trg. */
static void stairway_switch(int32_t *own, int32_t trg, int32_t t, int32_t warning, int32_t dark, int32_t e) {
    const bool trg_before = own[REMEMBERED] % 2 == 1, rises = trg && !trg_before, falls = !trg && trg_before;
    bool running = own[REMEMBERED] >= 2 || rises;
    int32_t ta = trg || falls || !running ? 0 : least(t, own[NUMBER] + e);
    if (!trg && ta == t) {
        running = false;
        ta = 0;
    }
    own[OUTPUT] = running && (trg || ta < t - warning || ta >= t - warning + dark);
    own[REMEMBERED] = trg + (running ? 2 : 0);
    own[NUMBER] = ta;
}

/* ---- the shift register */

static void shift_register(int32_t *own, int32_t in, int32_t trg, int32_t dir, int32_t bit) {
    if (trg && !own[REMEMBERED])
        own[NUMBER] = dir ? own[NUMBER] >> 1 | in << 7 : (own[NUMBER] << 1 & 0xFF) | in;
    own[OUTPUT] = own[NUMBER] >> (bit - 1) & 1;
    own[REMEMBERED] = trg;
}

/* ---- analog values */

/* In C a quotient's fraction is dropped toward zero. The value is held behind the offset. */
static int32_t actual(int32_t input, int32_t a, int32_t b) {
    const int32_t value = input * a / 100 + b;
    return value < LEAST_VALUE ? LEAST_VALUE : least(value, GREATEST_VALUE);
}

int32_t oracle_triggered(int32_t value, int32_t on, int32_t off, int32_t before) {
    if (on < off)
        return on <= value && value < off;
    return value > on ? 1 : value <= off ? 0 : before;
}

/* ---- the up/down counter */

static int32_t counted(int32_t count, int32_t on, int32_t off, int32_t before) {
    if (on < off)
        return on <= count && count < off;
    return count >= on ? 1 : count < off ? 0 : before;
}

static void up_down_counter(int32_t *own, int32_t r, int32_t cnt, int32_t dir, int32_t on, int32_t off) {
    const bool rises = cnt && !own[REMEMBERED];
    if (r)
        own[NUMBER] = 0;
    else if (rises && dir)
        own[NUMBER] -= own[NUMBER] > 0;
    else if (rises)
        own[NUMBER] += own[NUMBER] < MOST_COUNT;
    own[OUTPUT] = counted(own[NUMBER], on, off, own[OUTPUT]);
    own[REMEMBERED] = cnt;
}

/* ---- all kinds */

static void basic(unsigned kind, const int32_t *in, int32_t *own) {
    const int32_t all = in[0] & in[1] & in[2] & in[3], some = in[0] | in[1] | in[2] | in[3];
    switch (kind) {
    case AND:
        own[OUTPUT] = all;
        break;
    case AND_EDGE:
        own[OUTPUT] = all && !own[REMEMBERED];
        own[REMEMBERED] = all;
        break;
    case NAND:
        own[OUTPUT] = !all;
        break;
    case NAND_EDGE:
        own[OUTPUT] = !all && own[REMEMBERED];
        own[REMEMBERED] = all;
        break;
    case OR:
        own[OUTPUT] = some;
        break;
    case NOR:
        own[OUTPUT] = !some;
        break;
    case XOR:
        own[OUTPUT] = in[0] != in[1];
        break;
    case NOT:
        own[OUTPUT] = !in[0];
        break;
    }
}

/* The kinds on analog values. */
static void analog(unsigned kind, const int32_t *in, const int32_t *p, int32_t *own) {
    switch (kind) {
    case THRESHOLD_TRIGGER:
        own[OUTPUT] = oracle_triggered(actual(in[0], p[0], p[1]), p[2], p[3], own[OUTPUT]);
        break;
    case COMPARATOR:
        own[OUTPUT] = oracle_triggered(actual(in[0], p[0], p[1]) - actual(in[1], p[0], p[1]), p[2], p[3], own[OUTPUT]);
        break;
    case MULTIPLEXER:
        own[OUTPUT] = in[0] ? p[2 * in[1] + in[2]] : 0;
        break;
    case DIFFERENTIAL_TRIGGER:
        own[OUTPUT] = oracle_triggered(actual(in[0], p[0], p[1]), p[2], p[2] + p[3], own[OUTPUT]);
        break;
    case AMPLIFIER:
        own[OUTPUT] = actual(in[0], p[0], p[1]);
        break;
    }
}

/* The kinds that may be retentive. */
static void retentive(unsigned kind, const int32_t *in, const int32_t *p, int32_t e, int32_t *own) {
    switch (kind) {
    case ON_DELAY:
        on_delay(own, in[0], ticks(p[0], p[1]), e);
        break;
    case OFF_DELAY:
        off_delay(own, in[0], in[1], ticks(p[0], p[1]), e);
        break;
    case LATCHING_RELAY:
        own[OUTPUT] = in[1] ? 0 : in[0] ? 1 : own[OUTPUT];
        break;
    case SHIFT_REGISTER:
        shift_register(own, in[0], in[1], in[2], p[1]);
        break;
    case UP_DOWN_COUNTER:
        up_down_counter(own, in[0], in[1], in[2], p[0], p[1]);
        break;
    case STAIRWAY_SWITCH:
        stairway_switch(own, in[0], ticks(p[0], p[1]), ticks(p[0], p[2]), ticks(p[0], p[3]), e);
        break;
    }
}

void oracle_work_out(const uint8_t *content, const int32_t *record, int32_t *own) {
    const unsigned kind = content[0];
    const kind_rule *rule = &oracle_kind_rules[kind];
    int32_t in[MOST_INPUTS] = {0, 0, 0, 0}, p[MOST_PARAMETERS] = {0, 0, 0, 0};
    resolve(content, record, in);
    for (unsigned i = 0; i < rule->parameters; i++)
        p[i] = parameter_at(rule, content, i);
    if (kind <= NOT)
        basic(kind, in, own);
    else if (rule->retentive)
        retentive(kind, in, p, record[ELAPSED], own);
    else
        analog(kind, in, p, own);
}
