/* Random steps on one store that stays where it stands. `steps plain N` takes them in plain C, `steps proved N`
 * by the proved step_in_place in the archive that `rt lib` writes in crates/store_c; each prints a sum of all that
 * was answered. The plain step makes the same test of the whole state before it. It is the bench's measure of what
 * such a step costs without proofs, and no one's model of the rules.
 *
 * It includes no header: the kit's compiler, which makes it x86-64 code on every machine, has none. */

typedef unsigned char u8;
typedef unsigned int u32;
typedef unsigned long long u64;
typedef unsigned long size;

int printf(const char *format, ...);
int strcmp(const char *one, const char *other);
u64 strtoull(const char *text, char **end, int base);
void *memmove(void *to, const void *from, size count);

enum { R = 1, W, MW, MR, CU, CI };
enum { MOST_ENGINES = 8, MOST_ADDRESSES = 64, MOST_DEPTH = 32 };

/* The structs of crates figure and shape, which lay them out as C does. */
struct record { u8 kind, engine, origin, address; u32 data; };
struct answer { u8 number; struct record event; };
struct in_entry { u8 origin, address; u32 data; };
struct out_entry { u8 address; u32 data; };
struct cache { _Bool present[MOST_ADDRESSES]; u32 data[MOST_ADDRESSES]; };
struct out_queue { u8 length; struct out_entry at[MOST_DEPTH]; };
struct in_queue { u8 length; struct in_entry at[MOST_DEPTH]; };
struct store {
    u8 engines, addresses, depth;
    u32 memory[MOST_ADDRESSES];
    struct cache caches[MOST_ENGINES];
    struct out_queue outs[MOST_ENGINES];
    struct in_queue ins[MOST_ENGINES];
};

struct answer step_in_place(struct store *store, struct record action);

/* ---- the plain step */

static int sound_sizes(const struct store *store) {
    return store->engines >= 1 && store->engines <= MOST_ENGINES && store->addresses >= 1 &&
           store->addresses <= MOST_ADDRESSES && store->depth >= 1 && store->depth <= MOST_DEPTH;
}

static int sound_out(const struct store *store, const struct out_queue *queue) {
    if (queue->length > store->depth) return 0;
    for (u32 each = 0; each < queue->length; each++)
        if (queue->at[each].address >= store->addresses) return 0;
    return 1;
}

static int sound_in(const struct store *store, const struct in_queue *queue) {
    if (queue->length > store->depth) return 0;
    for (u32 each = 0; each < queue->length; each++)
        if (queue->at[each].origin > store->engines || queue->at[each].address >= store->addresses) return 0;
    return 1;
}

static int sound(const struct store *store) {
    if (!sound_sizes(store)) return 0;
    for (u32 k = 0; k < store->engines; k++)
        if (!sound_out(store, &store->outs[k]) || !sound_in(store, &store->ins[k])) return 0;
    return 1;
}

static u8 bad_form(const struct store *store, struct record action) {
    int names_address = action.kind != MW && action.kind != CU;
    if (action.kind < R || action.kind > CI) return 11;
    if (action.engine < 1 || action.engine > store->engines) return 12;
    if (names_address && action.address >= store->addresses) return 13;
    if (action.origin || (!names_address && action.address) || (action.kind != W && action.data)) return 14;
    return 0;
}

static int own_waits(const struct in_queue *queue, u8 engine) {
    for (u32 each = 0; each < queue->length; each++)
        if (queue->at[each].origin == engine) return 1;
    return 0;
}

static int some_in_queue_full(const struct store *store) {
    for (u32 k = 0; k < store->engines; k++)
        if (store->ins[k].length >= store->depth) return 1;
    return 0;
}

static u8 not_now(const struct store *store, struct record action) {
    const struct out_queue *out = &store->outs[action.engine - 1];
    const struct in_queue *in = &store->ins[action.engine - 1];
    switch (action.kind) {
    case R:
        if (out->length) return 21;
        if (own_waits(in, action.engine)) return 22;
        return store->caches[action.engine - 1].present[action.address] ? 0 : 23;
    case W: return out->length >= store->depth ? 24 : 0;
    case MW: return !out->length ? 25 : some_in_queue_full(store) ? 26 : 0;
    case MR: return in->length >= store->depth ? 27 : 0;
    case CU: return in->length ? 0 : 28;
    default: return 0;
    }
}

static struct record publish(struct store *store, struct record action) {
    struct out_queue *out = &store->outs[action.engine - 1];
    action.address = out->at[0].address;
    action.data = out->at[0].data;
    memmove(out->at, out->at + 1, --out->length * sizeof out->at[0]);
    store->memory[action.address] = action.data;
    struct in_entry entry = { action.engine, action.address, action.data };
    for (u32 k = 0; k < store->engines; k++) store->ins[k].at[store->ins[k].length++] = entry;
    return action;
}

static struct record update(struct store *store, struct record action) {
    struct cache *cache = &store->caches[action.engine - 1];
    struct in_queue *in = &store->ins[action.engine - 1];
    action.origin = in->at[0].origin;
    action.address = in->at[0].address;
    action.data = in->at[0].data;
    memmove(in->at, in->at + 1, --in->length * sizeof in->at[0]);
    cache->present[action.address] = 1;
    cache->data[action.address] = action.data;
    return action;
}

static struct record carry_out(struct store *store, struct record action) {
    struct cache *cache = &store->caches[action.engine - 1];
    struct out_queue *out = &store->outs[action.engine - 1];
    struct in_queue *in = &store->ins[action.engine - 1];
    switch (action.kind) {
    case R: action.data = cache->data[action.address]; return action;
    case W: out->at[out->length++] = (struct out_entry){ action.address, action.data }; return action;
    case MW: return publish(store, action);
    case MR:
        action.data = store->memory[action.address];
        in->at[in->length++] = (struct in_entry){ 0, action.address, action.data };
        return action;
    case CU: return update(store, action);
    default: cache->present[action.address] = 0; return action;
    }
}

/* A call, as the proved step is one. */
__attribute__((noinline)) static struct answer plain_step(struct store *store, struct record action) {
    struct answer answer = { 0, { 0, 0, 0, 0, 0 } };
    answer.number = sound(store) ? bad_form(store, action) : 17;
    if (!answer.number) answer.number = not_now(store, action);
    if (!answer.number) answer.event = carry_out(store, action);
    return answer;
}

/* ---- the steps */

static struct record drawn(u32 random) {
    struct record action = { (u8)(random / 65536 % 6 + 1), (u8)(random / 524288 % 8 + 1), 0, 0, 0 };
    if (action.kind != MW && action.kind != CU) action.address = (u8)(random / 8388608 % 64);
    if (action.kind == W) action.data = random;
    return action;
}

static u64 added(u64 sum, struct answer answer) {
    struct record event = answer.event;
    u32 fields = (u32)event.kind << 24 | (u32)event.engine << 16 | (u32)event.origin << 8 | event.address;
    sum = (sum ^ answer.number) * 0x100000001b3ull;
    return (sum ^ ((u64)fields << 32 | event.data)) * 0x100000001b3ull;
}

int main(int words, char **word) {
    static struct store store = { .engines = MOST_ENGINES, .addresses = MOST_ADDRESSES, .depth = MOST_DEPTH };
    if (words != 3) return 2;
    int proved = !strcmp(word[1], "proved");
    u64 sum = 0xcbf29ce484222325ull;
    u32 random = 1;
    for (u64 left = strtoull(word[2], 0, 10); left; left--) {
        random = random * 1664525 + 1013904223;
        struct record action = drawn(random);
        sum = added(sum, proved ? step_in_place(&store, action) : plain_step(&store, action));
    }
    printf("%016llx\n", sum);
    return 0;
}
