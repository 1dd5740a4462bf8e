/* sides.h: every call of one side by its number; included once for each side, with CALL(name) that side's name. */

static uint64_t CALL(made_step)(struct state *s, const struct call *c) {
    switch (c->number) {
    case OPEN_SCOPE:
        return CALL(open_scope)(s->queue, c->a, c->b);
    case OPEN_ITERATOR:
        return CALL(open_iterator)(s->queue, c->a, c->b, c->list, c->count);
    case REGISTER:
        return CALL(register)(s->queue, c->a, s->answer);
    case LAND:
        return CALL(land)(s->queue, c->a, s->answer);
    case REGISTER_ALL:
        return CALL(register_all)(s->queue, c->list, c->count, s->answer);
    case POP:
        return CALL(pop)(s->queue, s->answer);
    case COMPLETE:
        return CALL(complete)(s->queue, c->ticket, c->a, c->b, s->answer);
    case RETRY:
        return CALL(retry)(s->queue, s->answer);
    case ADMIT:
        return CALL(admit)(s->queue, c->list, c->count, s->answer);
    case ADMIT_WITHOUT:
        return CALL(admit_without)(s->queue, s->answer);
    case END:
        return CALL(end)(s->queue, s->answer);
    default:
        return CALL(cancel)(s->queue, s->answer);
    }
}

static uint64_t CALL(made_question)(struct state *s, const struct call *c) {
    switch (c->number) {
    case IS_EMPTY:
        return CALL(is_empty)(s->queue, s->answer);
    case IS_ISSUED:
        return CALL(is_issued)(s->queue, s->answer);
    case IS_PENDING:
        return CALL(is_pending)(s->queue, s->answer);
    case IS_SETTLED:
        return CALL(is_settled)(s->queue, s->answer);
    case IS_CANCELLED:
        return CALL(is_cancelled)(s->queue, s->answer);
    case HAS_FAILED:
        return CALL(has_failed)(s->queue, s->answer);
    case CAN_RETRY:
        return CALL(can_retry)(s->queue, s->answer);
    case CAN_FINISH:
        return CALL(can_finish)(s->queue, c->list, c->count, s->answer);
    case DOMAIN:
        return CALL(domain)(s->queue, s->answer);
    default:
        return CALL(well_formed)(s->queue);
    }
}

static uint64_t CALL(made_recorded)(struct state *s, const struct call *c) {
    switch (c->number) {
    case REGISTER_RECORDED:
        return CALL(register_recorded)(s->queue, c->a, s->log, c->words, &s->used, s->answer);
    case LAND_RECORDED:
        return CALL(land_recorded)(s->queue, c->a, s->log, c->words, &s->used, s->answer);
    case REGISTER_ALL_RECORDED:
        return CALL(register_all_recorded)(s->queue, c->list, c->count, s->log, c->words, &s->used, s->answer);
    case POP_RECORDED:
        return CALL(pop_recorded)(s->queue, s->log, c->words, &s->used, s->answer);
    case COMPLETE_RECORDED:
        return CALL(complete_recorded)(s->queue, c->ticket, c->a, c->b, s->log, c->words, &s->used, s->answer);
    case RETRY_RECORDED:
        return CALL(retry_recorded)(s->queue, s->log, c->words, &s->used, s->answer);
    case ADMIT_RECORDED:
        return CALL(admit_recorded)(s->queue, c->list, c->count, s->log, c->words, &s->used, s->answer);
    case ADMIT_WITHOUT_RECORDED:
        return CALL(admit_without_recorded)(s->queue, s->log, c->words, &s->used, s->answer);
    case END_RECORDED:
        return CALL(end_recorded)(s->queue, s->log, c->words, &s->used, s->answer);
    case CANCEL_RECORDED:
        return CALL(cancel_recorded)(s->queue, s->log, c->words, &s->used, s->answer);
    default:
        return CALL(read)(s->queue, c->kind, c->a, c->b, c->list, c->count, s->log, c->words, s->answer);
    }
}

static void CALL(make)(struct state *s, const struct call *c) {
    if (c->number < IS_EMPTY) {
        s->result = CALL(made_step)(s, c);
    } else if (c->number < REGISTER_RECORDED) {
        s->result = CALL(made_question)(s, c);
    } else {
        s->result = CALL(made_recorded)(s, c);
    }
}
