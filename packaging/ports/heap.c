/* The heap of sokoaudit.html, and the calls of sokoaudit.h with numbers of 32 bits, as WebAssembly exports them. No proof covers this file.
 *
 * The proved module calls the three functions rattle_.. for memory. A block has a power of two of bytes, of which the first 16 hold its size. A
 * block that is given back goes into the list of its size. New ones are taken from the end of the memory, which grows up to 4 GiB. */
typedef unsigned long long u64;
typedef unsigned int u32;
typedef unsigned char u8;

/* what the toolchain's calls for memory return: whether there is a block, and where; without one, an address that is never read */
struct tried { u64 ok, block; };
struct head { u64 size, unused; };

extern u8 __heap_base;
static u32 end;
static void *lists[32];

/* Returns a block with room for some bytes, or 0. */
static void *take(u64 bytes)
{
    if (bytes > 1ull << 31) return 0;
    u32 size = 5;
    while (1ull << size < bytes + sizeof(struct head)) size++;
    void *found = lists[size];
    if (found) {
        lists[size] = *(void **)found;
        return found;
    }
    if (!end) end = ((u32)&__heap_base + 15) & ~15u;
    u64 have = (u64)__builtin_wasm_memory_size(0) << 16, want = end + (1ull << size);
    if (want >= 1ull << 32) return 0;
    if (want > have && __builtin_wasm_memory_grow(0, (want - have + 65535) >> 16) == -1ul) return 0;
    struct head *block = (struct head *)end;
    end = want;
    block->size = size;
    return block + 1;
}

void rattle_dealloc(void *block)
{
    struct head *head = (struct head *)block - 1;
    *(void **)block = lists[head->size];
    lists[head->size] = block;
}

struct tried rattle_alloc(u64 bytes, u64 align)
{
    void *block = take(bytes ? bytes : align);
    return (struct tried){ block != 0, block ? (u32)block : align };
}

struct tried rattle_realloc(void *block, u64 before, u64 bytes, u64 align)
{
    u64 want = bytes ? bytes : align, room = (1ull << ((struct head *)block - 1)->size) - sizeof(struct head);
    (void)before;
    if (want <= room) return (struct tried){ 1, (u32)block };
    void *moved = take(want);
    if (!moved) return (struct tried){ 0, align };
    __builtin_memcpy(moved, block, room);
    rattle_dealloc(block);
    return (struct tried){ 1, (u32)moved };
}

u32 sokoaudit_audit(const u8 *, u64, const u8 *, u64, u8 *, u64, u64 *);
u32 sokoaudit_make(const u8 *, u64, u8 *, u64, u64 *);
u32 sokoaudit_dead(const u8 *, u64, u64, u8 *, u64, u64 *);
u64 sokoaudit_levels(const u8 *, u64, u64 *, u64);
u32 sokoaudit_records(const u8 *, u64, u64, u64 *, u64, u64 *);
u32 sokoaudit_judge(const u8 *, u64, u32, const u8 *, u64, u64 *);
u64 sokoaudit_fault_text(const u64 *, u8 *, u64);

#define EXPORTED(name) __attribute__((export_name(#name)))

EXPORTED(take) void *take_block(u32 bytes) { return take(bytes ? bytes : 1); }

EXPORTED(give) void give_block(void *block) { rattle_dealloc(block); }

EXPORTED(audit) u32 audit(const u8 *levels, u32 n, const u8 *answers, u32 m, u8 *report, u32 room, u64 *outcome)
{
    return sokoaudit_audit(levels, n, answers, m, report, room, outcome);
}

EXPORTED(make) u32 make(const u8 *levels, u32 n, u8 *answers, u32 room, u64 *outcome)
{
    return sokoaudit_make(levels, n, answers, room, outcome);
}

EXPORTED(dead) u32 dead(const u8 *levels, u32 n, u32 number, u8 *map, u32 room, u64 *outcome)
{
    return sokoaudit_dead(levels, n, number, map, room, outcome);
}

EXPORTED(levels) u32 levels(const u8 *text, u32 n, u64 *spans, u32 room) { return sokoaudit_levels(text, n, spans, room); }

EXPORTED(records) u32 records(const u8 *answers, u32 n, u32 levels, u64 *spans, u32 room, u64 *outcome)
{
    return sokoaudit_records(answers, n, levels, spans, room, outcome);
}

EXPORTED(judge) u32 judge(const u8 *level, u32 n, u32 kind, const u8 *body, u32 m, u64 *line)
{
    return sokoaudit_judge(level, n, kind, body, m, line);
}

EXPORTED(fault) u32 fault(const u64 *outcome, u8 *text, u32 room) { return sokoaudit_fault_text(outcome, text, room); }
