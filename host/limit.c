/* The limit: a plain check of the whole record where it lies, and nothing else. No event can be faster, since each
 * checks the record; it is no peer, since it does nothing. host/test holds it to what the library refuses with 22. */
#include "esdi.h"

static int general_ok(uint32_t w, uint32_t head_switch) {
    return w < 32768 && !(w & 4096) && (w >> 10 & 1) + (w >> 9 & 1) + (w >> 8 & 1) == 1 &&
           (w >> 7 & 1) + (w >> 6 & 1) == 1 && (w >> 4 & 1) == (head_switch > 15) &&
           (w >> 2 & 1) + (w >> 1 & 1) + (w & 1) == 1;
}

static int sector_ok(uint32_t general, uint32_t size) {
    return general & ESDI_GENERAL_SOFT_SECTORED ? size == 0 : 162 <= size && size <= 4095;
}

static int valid(const struct esdi_profile *p) {
    const struct esdi_shape *s = &p->shape;
    const struct esdi_times *t = &p->times;
    return 1 <= p->slot && p->slot <= ESDI_SLOTS && general_ok(p->general, t->head_switch) && 1 <= s->cylinders &&
           s->cylinders <= 4096 && 1 <= s->heads && s->heads <= 16 && 4095 <= s->track && s->track <= 40960 &&
           sector_ok(p->general, s->sector) && p->write_protected <= 1 && t->settle <= 60000 && t->step <= 1000 &&
           t->head_switch <= 60000 && t->recalibrate <= 30000000 && t->start <= 30000000 &&
           t->diagnostic <= 30000000 && t->offset <= 60000;
}

static int idle(const struct esdi_transfer *t) {
    return !t->waiting && !t->bits && !t->response && !t->count && !t->acknowledge;
}

static int transfer_ok(const struct esdi_transfer *t, uint32_t request) {
    if (t->way == ESDI_WAY_NONE)
        return idle(t);
    if (t->way > ESDI_WAY_RESPONDING || t->waiting > 10000 || t->acknowledge != request || t->count > 16 + request)
        return 0;
    if (t->way == ESDI_WAY_TAKING)
        return 1 <= t->count && t->bits >> t->count == 0 && t->response == 0;
    return request <= t->count && t->bits == 0 && t->response < 131072;
}

static int usable(const struct esdi_profile *p, const struct esdi_state *s) {
    const struct esdi_body *b = &s->body;
    return b->motor == ESDI_MOTOR_UP && s->transfer.way == ESDI_WAY_NONE && !b->busy && !b->head_timer && !b->lost &&
           b->head < p->shape.heads;
}

static int selected_ok(const struct esdi_profile *p, const struct esdi_state *s, const struct esdi_levels *l) {
    const struct esdi_body *b = &s->body;
    if (b->head != l->heads || !transfer_ok(&s->transfer, l->request))
        return 0;
    if (b->writing && (!l->write_gate || l->read_gate || b->latched || b->offset || p->write_protected || !usable(p, s)))
        return 0;
    return !b->reading || (l->read_gate && !l->write_gate && usable(p, s));
}

static int drive_ok(const struct esdi_profile *p, const struct esdi_state *s, const struct esdi_levels *l) {
    const struct esdi_body *b = &s->body;
    if (b->cylinder >= p->shape.cylinders || b->offset > 2 || b->lost > 1 || b->busy > 30000000 ||
        b->head_timer > 60000 || b->latched > 511 || b->latched & 4 || !sector_ok(p->general, b->sector) ||
        b->head > 15 || b->motor > ESDI_MOTOR_UP || (b->motor == ESDI_MOTOR_STARTING && !b->busy) || b->reading > 1 ||
        b->writing > 1 || b->standing > 1 || (b->standing && !(b->latched & ESDI_STATUS_WRITE_FAULT)))
        return 0;
    if (l->select == p->slot)
        return selected_ok(p, s, l);
    return s->transfer.way == ESDI_WAY_NONE && idle(&s->transfer) && !b->reading && !b->writing;
}

/* Whether the record is one that the rules could leave. */
int limit_sound(const struct esdi_chain *c) {
    const struct esdi_levels *l = &c->lines;
    if (l->select > 7 || l->heads > 15 || l->write_gate > 1 || l->read_gate > 1 || l->command_data > 1 ||
        l->request > 1)
        return 0;
    uint64_t end = 0;
    for (uint32_t i = 0; i < ESDI_SLOTS; i++) {
        const struct esdi_pack *pack = &c->packs[i];
        const struct esdi_shape *shape = &pack->profile.shape;
        if (pack->fitted > 1)
            return 0;
        if (!pack->fitted)
            continue;
        if (pack->profile.slot != i + 1 || pack->place != end || !valid(&pack->profile) ||
            !drive_ok(&pack->profile, &c->states[i], l))
            return 0;
        end += (uint64_t)shape->cylinders * shape->heads * shape->track + 44;
    }
    return end == c->length && end <= 2147483647;
}
