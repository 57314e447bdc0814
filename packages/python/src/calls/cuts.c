#include "cuts.h"

#include <stdlib.h>
#include <string.h>

/* How many cuts are read at once. */
enum { BLOCK = 64 };

/* Limits with which each cut ends a chunk. */
static const lbk_limits each_cut = {.most = 1, .words = 0, .least = 0, .overlap = 0};

/* Makes room for a block. Returns false if an allocation fails. */
static bool make_room(cut_queue *queue)
{
    size_t held = queue->count - queue->first;
    if (queue->first > queue->room / 2) {
        memmove(queue->items, queue->items + queue->first, held * sizeof *queue->items);
        queue->first = 0;
        queue->count = held;
        if (queue->room - held >= BLOCK)
            return true;
    }
    size_t room = 2 * queue->room + 2 * BLOCK;
    cut *more = realloc(queue->items, room * sizeof *more);
    if (more == NULL)
        return false;
    queue->items = more;
    queue->room = room;
    return true;
}

static void read_block(cut_queue *queue)
{
    const utf8_text *text = queue->text;
    lbk_chunk block[BLOCK];
    if (queue->room - queue->count < BLOCK && !make_room(queue)) {
        queue->has_all = queue->is_refused = true;
        return;
    }
    size_t count = lbk_chunks(queue->table, &each_cut, &queue->state, text->bytes, text->size, block, BLOCK);
    for (size_t k = 0; k < count; k++) {
        queue->words += block[k].words;
        size_t at = to_unit(&queue->places, text, block[k].end);
        queue->items[queue->count++] = (cut){at, queue->words, block[k].kind, block[k].rule};
    }
    queue->has_all = count < BLOCK;
}

const cut *cut_at(cut_queue *queue, size_t k)
{
    while (k >= queue->count - queue->first && !queue->has_all)
        read_block(queue);
    return k < queue->count - queue->first ? &queue->items[queue->first + k] : NULL;
}

void drop_cuts(cut_queue *queue, size_t count)
{
    queue->first += count;
}
