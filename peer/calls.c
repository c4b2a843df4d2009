/* A call of the bench, made through include/viper.h or of the second program. */

#include "calls.h"

#include "../include/viper.h"
#include "second.h"

#include <inttypes.h>
#include <stdio.h>

uint64_t call_ours(struct board *b, const struct call *call)
{
    switch (call->operation) {
    case STEP:
        return viper_step(b->regs, b->main, b->main_length, b->ports, b->ports_length, b->trail,
                          b->trail_length, &b->used);
    case RUN:
        return viper_run(b->regs, b->main, b->main_length, b->ports, b->ports_length, b->trail,
                         b->trail_length, &b->used, call->budget);
    case RESET:
        return viper_reset(b->regs, b->trail, b->trail_length, &b->used);
    case FORCE:
        return viper_force(b->regs, b->trail, b->trail_length, &b->used);
    case SET:
        return viper_set(b->regs, b->main, b->main_length, b->ports, b->ports_length, b->trail,
                         b->trail_length, &b->used, call->store, call->address, call->value);
    case BACK:
        return viper_back(b->regs, b->main, b->main_length, b->ports, b->ports_length, b->trail,
                          b->trail_length, &b->used);
    default:
        return viper_fitted(b->main, b->main_length, b->ports, b->ports_length, call->store,
                            call->address, call->n);
    }
}

static uint64_t answer_of_run(struct ran ran)
{
    uint64_t ending = ran.refusal != 0 ? 16 + ran.refusal : ran.ending;
    return ran.done + (ending << 32);
}

static uint64_t ask_second(struct second *bench, const struct call *call)
{
    bool port = call->store != 0;
    switch (call->operation) {
    case STEP: return second_step(bench);
    case RUN: return answer_of_run(second_run(bench, call->budget));
    case RESET: return second_reset(bench);
    case FORCE: return second_force(bench);
    case SET: return second_set(bench, port, call->address, call->value);
    case BACK: return second_back(bench);
    default: return second_fitted(bench, port, call->address, call->n);
    }
}

uint64_t call_second(struct board *b, const struct call *call)
{
    struct second bench = {
        .A = b->regs[VIPER_A],
        .X = b->regs[VIPER_X],
        .Y = b->regs[VIPER_Y],
        .P = b->regs[VIPER_P],
        .B = b->regs[VIPER_B] != 0,
        .STOP = b->regs[VIPER_STOP] != 0,
        .main = b->main,
        .main_length = b->main_length,
        .ports = b->ports,
        .ports_length = b->ports_length,
        .trail = b->trail,
        .trail_length = b->trail_length,
        .used = b->used,
    };
    uint64_t answer = ask_second(&bench, call);
    if (call->operation == VIEW || refusal_in(call->operation, answer) != 0)
        return answer;
    b->regs[VIPER_A] = bench.A;
    b->regs[VIPER_X] = bench.X;
    b->regs[VIPER_Y] = bench.Y;
    b->regs[VIPER_P] = bench.P;
    b->regs[VIPER_B] = bench.B;
    b->regs[VIPER_STOP] = bench.STOP;
    b->used = bench.used;
    return answer;
}

uint32_t refusal_in(enum operation operation, uint64_t answer)
{
    if (operation == VIEW)
        return 0;
    if (operation == RUN)
        return answer >> 32 >= 16 ? (answer >> 32) - 16 : 0;
    return answer;
}

bool may_refuse(enum operation operation, uint32_t refusal)
{
    switch (refusal) {
    case 1:
    case 3: return operation != VIEW;
    case 2: return operation == STEP || operation == RUN || operation == SET || operation == BACK;
    case 4: return operation == STEP;
    case 5: return operation == STEP || operation == SET;
    case 6:
        return operation == STEP || operation == RESET || operation == FORCE || operation == SET;
    case 7:
    case 8: return operation == BACK;
    default: return false;
    }
}

const char *operation_name(enum operation operation)
{
    static const char *const names[OPERATIONS] = {"step", "run",       "reset", "force",
                                                  "set",  "take back", "view"};
    return names[operation];
}

const char *ending_name(uint32_t ending)
{
    static const char *const names[] = {"stopped", "budget", "unfitted", "full"};
    return ending < 4 ? names[ending] : "an ending without a name";
}

void call_print(const struct call *call)
{
    const char *store = call->store == 0 ? "main" : "port";
    printf("%s", operation_name(call->operation));
    if (call->operation == RUN)
        printf(", budget %" PRIu32, call->budget);
    if (call->operation == SET)
        printf(", %s %05" PRIX32 " to %08" PRIX32, store, call->address, call->value);
    if (call->operation == VIEW)
        printf(", %s %05" PRIX32 ", %zu words", store, call->address, call->n);
    printf("\n");
}

void answer_print(enum operation operation, uint64_t answer)
{
    uint32_t refusal = refusal_in(operation, answer);
    if (operation == VIEW)
        printf("%s (%" PRIu64 ")\n", answer ? "fitted" : "not fitted", answer);
    else if (refusal != 0)
        printf("refused %" PRIu32 " (answer %" PRIX64 ")\n", refusal, answer);
    else if (operation == RUN)
        printf("%" PRIu32 " steps, %s (answer %" PRIX64 ")\n", (uint32_t)answer,
               ending_name(answer >> 32), answer);
    else
        printf("accepted\n");
}
