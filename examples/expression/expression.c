/* A filter written as for tcpdump, as a program of the host: pcap_compile makes the classic program, and each of its instructions becomes
 * some slots with the same result on every packet as libpcap's bpf_filter. README.md explains how to build and use it.
 * usage: expression LINKTYPE EXPRESSION
 *        expression -                      the classic program on standard input, as tcpdump -ddd writes it
 * The slots are written as hex lines, as `bpfhost asm` writes them. The status is 1 if the filter is rejected. */
#include <pcap/pcap.h>
#include <stdint.h>
#include <stdio.h>
#include <stdlib.h>
#include <string.h>

#define MOST 4096
/* Registers: A, X, the context, the upper end of the stack; the stack has one load's bytes, and M[i] below them. */
enum { A = 7, X = 8, CONTEXT = 6, STACK = 10, BUFFER = -8 };
#define SCRATCH(word) (-16 - 4 * (int)(word))
#define ANCILLARY 0xffe00000u
#define FARTHEST 0x7fffffffu
/* The target of a load beyond the packet: the slot after the last instruction. */
#define DROP(program) ((program)->bf_len)

struct slots {
    uint8_t bytes[8 * MOST];
    size_t count;
    /* The first slot of each instruction, once it is known, and whether a path leads to it. */
    size_t begins[MOST + 2];
    char is_reached[MOST + 2];
};

static void refuse(const char *why, size_t at)
{
    fprintf(stderr, "expression: instruction %zu: %s\n", at, why);
    exit(1);
}

static void put(struct slots *to, int opcode, int register_, int source, long offset, uint32_t number)
{
    uint8_t slot[8] = {(uint8_t)opcode, (uint8_t)(register_ | source << 4), (uint8_t)offset, (uint8_t)((unsigned long)offset >> 8),
                       (uint8_t)number, (uint8_t)(number >> 8), (uint8_t)(number >> 16), (uint8_t)(number >> 24)};
    if (to->count == MOST) {
        fprintf(stderr, "expression: the translation has more than %d slots\n", MOST);
        exit(1);
    }
    memcpy(to->bytes + 8 * to->count++, slot, sizeof slot);
}

/* A jump to the slots of an instruction. */
static void jump(struct slots *to, size_t target, int opcode, int register_, int source, uint32_t number)
{
    to->is_reached[target] = 1;
    put(to, opcode, register_, source, (long)to->begins[target] - (long)to->count - 1, number);
}

/* Bytes of the packet come into a register; register 2 has the offset. */
static void load(struct slots *to, const struct bpf_program *program, int register_, uint32_t size)
{
    put(to, 0xbf, 1, CONTEXT, 0, 0);
    put(to, 0xbf, 3, STACK, 0, 0);
    put(to, 0x07, 3, 0, 0, (uint32_t)BUFFER);
    put(to, 0xb4, 4, 0, 0, size);
    put(to, 0x85, 0, 0, 0, 26);
    jump(to, DROP(program), 0x55, 0, 0, 0);
    put(to, size == 4 ? 0x61 : size == 2 ? 0x69 : 0x71, register_, STACK, BUFFER, 0);
    if (size > 1)
        put(to, 0xdc, register_, 0, 0, 8 * size);
}

static void load_at(struct slots *to, const struct bpf_program *program, int register_, size_t at, uint32_t size)
{
    uint32_t k = program->bf_insns[at].k;
    if (k >= ANCILLARY)
        refuse("a load of what is no byte of the packet: python3 -m bpfhost has the words of the context for some", at);
    put(to, 0xb4, 2, 0, 0, k);
    load(to, program, register_, size);
}

/* X and k are summed in 64 bits: the helper looks at 32 of them. */
static void load_behind_x(struct slots *to, const struct bpf_program *program, uint32_t k, uint32_t size)
{
    put(to, 0xbc, 2, X, 0, 0);
    put(to, 0xb4, 3, 0, 0, k);
    put(to, 0x0f, 2, 3, 0, 0);
    jump(to, DROP(program), 0x25, 2, 0, FARTHEST);
    load(to, program, A, size);
}

static void load_any(struct slots *to, const struct bpf_program *program, size_t at)
{
    const struct bpf_insn *it = &program->bf_insns[at];
    int register_ = BPF_CLASS(it->code) == BPF_LDX ? X : A;
    uint32_t size = BPF_SIZE(it->code) == BPF_W ? 4 : BPF_SIZE(it->code) == BPF_H ? 2 : 1;
    switch (BPF_MODE(it->code)) {
    case BPF_IMM:
        put(to, 0xb4, register_, 0, 0, it->k);
        break;
    case BPF_LEN:
        put(to, 0x61, register_, CONTEXT, 0, 0);
        break;
    case BPF_MEM:
        if (it->k >= BPF_MEMWORDS)
            refuse("scratch memory has 16 words", at);
        put(to, 0x61, register_, STACK, SCRATCH(it->k), 0);
        break;
    case BPF_ABS:
        load_at(to, program, register_, at, size);
        break;
    case BPF_IND:
        load_behind_x(to, program, it->k, size);
        break;
    case BPF_MSH:
        load_at(to, program, register_, at, 1);
        put(to, 0x54, X, 0, 0, 15);
        put(to, 0x64, X, 0, 0, 2);
        break;
    default:
        refuse("no load has this code", at);
    }
}

/* The codes of operators are those of eBPF; a division by 0 ends with 0, and a shift by 32 and more gives 0. */
static void operate(struct slots *to, const struct bpf_program *program, size_t at)
{
    const struct bpf_insn *it = &program->bf_insns[at];
    int operator = BPF_OP(it->code), by_x = BPF_SRC(it->code) == BPF_X;
    int divides = operator == BPF_DIV || operator == BPF_MOD, shifts = operator == BPF_LSH || operator == BPF_RSH;
    if (operator > BPF_XOR || (!by_x && ((divides && it->k == 0) || (shifts && it->k > 31))))
        refuse("no operator has this code, or it divides by 0, or shifts by more than 31 bits", at);
    if (by_x && divides)
        jump(to, DROP(program), 0x16, X, 0, 0);
    if (by_x && shifts)
        put(to, 0x26, X, 0, 2, 31);
    put(to, 0x04 | operator | (by_x ? 8 : 0), A, by_x ? X : 0, 0, by_x || operator == BPF_NEG ? 0 : it->k);
    if (by_x && shifts) {
        put(to, 0x05, 0, 0, 1, 0);
        put(to, 0xb4, A, 0, 0, 0);
    }
}

static void branch(struct slots *to, const struct bpf_program *program, size_t at)
{
    const struct bpf_insn *it = &program->bf_insns[at];
    int by_x = BPF_SRC(it->code) == BPF_X, test = BPF_OP(it->code);
    if (test == BPF_JA && it->k < program->bf_len - at - 1) {
        jump(to, at + 1 + it->k, 0x05, 0, 0, 0);
        return;
    }
    /* eBPF has the codes 1 to 4 for the tests, as classic BPF has. */
    if (test < BPF_JEQ || test > BPF_JSET || it->jt >= program->bf_len - at - 1 || it->jf >= program->bf_len - at - 1)
        refuse("a jump backward or out of the program, or no jump has this code", at);
    if (it->jt != it->jf)
        jump(to, at + 1 + it->jt, 0x06 | test | (by_x ? 8 : 0), A, by_x ? X : 0, by_x ? 0 : it->k);
    if (it->jf == 0)
        to->is_reached[at + 1] = 1;
    else
        jump(to, at + 1 + it->jf, 0x05, 0, 0, 0);
}

/* The slots of an instruction; whether the next one follows. */
static int translate_one(struct slots *to, const struct bpf_program *program, size_t at)
{
    const struct bpf_insn *it = &program->bf_insns[at];
    switch (BPF_CLASS(it->code)) {
    case BPF_LD:
    case BPF_LDX:
        load_any(to, program, at);
        return 1;
    case BPF_ST:
    case BPF_STX:
        if (it->k >= BPF_MEMWORDS)
            refuse("scratch memory has 16 words", at);
        put(to, 0x63, STACK, BPF_CLASS(it->code) == BPF_ST ? A : X, SCRATCH(it->k), 0);
        return 1;
    case BPF_ALU:
        operate(to, program, at);
        return 1;
    case BPF_JMP:
        branch(to, program, at);
        return 0;
    case BPF_RET:
        if (BPF_RVAL(it->code) == BPF_A)
            put(to, 0xbc, 0, A, 0, 0);
        else
            put(to, 0xb4, 0, 0, 0, it->k);
        put(to, 0x95, 0, 0, 0, 0);
        return 0;
    default:
        put(to, 0xbc, BPF_MISCOP(it->code) == BPF_TAX ? X : A, BPF_MISCOP(it->code) == BPF_TAX ? A : X, 0, 0);
        return 1;
    }
}

/* Writes all slots: those of instructions that a path leads to. */
static void translate_all(struct slots *to, const struct bpf_program *program)
{
    to->count = 0;
    put(to, 0xbf, CONTEXT, 1, 0, 0);
    put(to, 0xb4, A, 0, 0, 0);
    put(to, 0xb4, X, 0, 0, 0);
    memset(to->is_reached, 0, sizeof to->is_reached);
    to->is_reached[0] = 1;
    for (size_t at = 0; at < program->bf_len; at++) {
        to->begins[at] = to->count;
        if (to->is_reached[at] && translate_one(to, program, at))
            to->is_reached[at + 1] = 1;
    }
    if (BPF_CLASS(program->bf_insns[program->bf_len - 1].code) != BPF_RET)
        refuse("the last instruction is no return", program->bf_len - 1);
    to->begins[DROP(program)] = to->count;
    if (to->is_reached[DROP(program)]) {
        put(to, 0xb4, 0, 0, 0, 0);
        put(to, 0x95, 0, 0, 0, 0);
    }
}

static void read_program(struct bpf_program *program)
{
    static struct bpf_insn read[MOST];
    unsigned code, jt, jf, k;
    if (scanf("%u", &program->bf_len) != 1 || program->bf_len == 0 || program->bf_len > MOST)
        refuse("standard input has no count from 1 to 4,096", 0);
    for (size_t at = 0; at < program->bf_len; at++) {
        if (scanf("%u %u %u %u", &code, &jt, &jf, &k) != 4 || code > 0xffff || jt > 0xff || jf > 0xff)
            refuse("standard input has not its code, jt, jf and k", at);
        read[at] = (struct bpf_insn){(u_short)code, (u_char)jt, (u_char)jf, k};
    }
    program->bf_insns = read;
}

static void compile(struct bpf_program *program, const char *link_type, const char *expression)
{
    int type = pcap_datalink_name_to_val(link_type);
    pcap_t *pcap = pcap_open_dead(type < 0 ? DLT_EN10MB : type, 262144);
    if (type < 0 || pcap == NULL) {
        fprintf(stderr, "expression: %s is no link type\n", link_type);
        exit(1);
    }
    if (pcap_compile(pcap, program, expression, 1, 0) < 0) {
        fprintf(stderr, "expression: %s\n", pcap_geterr(pcap));
        exit(1);
    }
    pcap_close(pcap);
}

int main(int count, char **words)
{
    static struct slots slots;
    struct bpf_program program = {0, NULL};
    if (count == 2 && strcmp(words[1], "-") == 0) {
        read_program(&program);
    } else if (count == 3) {
        compile(&program, words[1], words[2]);
    } else {
        fprintf(stderr, "usage: expression LINKTYPE EXPRESSION, or expression - for what tcpdump -ddd writes\n");
        return 2;
    }
    if (program.bf_len == 0 || program.bf_len > MOST)
        refuse("a program has 1 to 4,096 instructions", 0);
    /* In the first pass the slots' places are not known; in the second all are. */
    translate_all(&slots, &program);
    translate_all(&slots, &program);
    for (size_t at = 0; at < 8 * slots.count; at++)
        printf("%02x%s", slots.bytes[at], at % 8 == 7 ? "\n" : "");
    if (count == 3)
        pcap_freecode(&program);
    return 0;
}
