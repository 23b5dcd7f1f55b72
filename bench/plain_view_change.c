/* The view change in plain C. */
#include "plain.h"

/* Sends a VIEWCHANGE or LEADER. */
static speckleewe_reply tell(uint8_t kind, uint8_t own, uint32_t view, uint16_t mask, uint8_t *out)
{
    plain_header head = { .kind = kind, .sender = own, .view = view, .mask = mask };

    return plain_accept(plain_write(head, NULL, NULL, out));
}

/* A site's suspicion of the present view. */
static speckleewe_reply suspect(speckleewe_view_record *v, speckleewe_roster r, uint8_t own,
                                uint8_t site, uint8_t *out)
{
    uint16_t suspicions = v->suspicions | bit(site);

    if (ones(suspicions) <= r.f || v->target.number != 0) {
        v->suspicions = suspicions;
        return plain_accept(0);
    }
    if (v->view.number == UINT32_MAX)
        return plain_refuse(FULL);
    v->suspicions = suspicions;
    v->target.number = v->view.number + 1;
    v->changes = bit(own);
    return tell(VIEWCHANGE, own, v->target.number, suspicions, out);
}

/* A site's VIEWCHANGE. */
static speckleewe_reply change(speckleewe_view_record *v, speckleewe_roster r, uint8_t own,
                               const plain_header *h, uint8_t *out)
{
    if (h->view <= v->view.number || h->view < v->target.number)
        return plain_refuse(STALE);
    if (beyond(h->mask, r) || ones(h->mask) <= r.f)
        return plain_refuse(PROOF);
    if (h->view != v->target.number) {
        v->target.number = h->view;
        v->changes = bit(h->sender) | bit(own);
        return tell(VIEWCHANGE, own, h->view, h->mask, out);
    }

    uint16_t changes = v->changes | bit(h->sender);
    if (ones(changes) < quorum_of(r)) {
        v->changes = changes;
        return plain_accept(0);
    }
    *v = (speckleewe_view_record){ .view = { h->view } };
    return tell(LEADER, own, h->view, changes, out);
}

/* A SUSPICION or VIEWCHANGE at site `own`. */
speckleewe_reply plain_view_change(speckleewe_view_record *views, speckleewe_roster roster,
    uint8_t own, const uint8_t *line, size_t length, uint8_t *out, size_t room)
{
    plain_frame f;

    if (!seated(roster, own, room) || !views_valid(views, roster))
        return plain_refuse(CONFIG);
    if (!plain_read(line, length, 1u << SUSPICION | 1u << VIEWCHANGE, &f))
        return plain_refuse(FORM);
    if (f.head.sender >= roster.n)
        return plain_refuse(SENDER);
    if (f.head.kind == VIEWCHANGE)
        return change(views, roster, own, &f.head, out);
    if (f.head.view != views->view.number)
        return plain_refuse(STALE);
    return suspect(views, roster, own, f.head.sender, out);
}

/* The host's own suspicion of a view. */
speckleewe_reply plain_suspicion(speckleewe_view_record *views, speckleewe_roster roster,
    uint8_t own, speckleewe_view view, uint8_t *out, size_t room)
{
    if (!seated(roster, own, room) || !views_valid(views, roster))
        return plain_refuse(CONFIG);
    if (view.number != views->view.number)
        return plain_refuse(STALE);
    return suspect(views, roster, own, own, out);
}
