# What a linked program gets from the archive, read from its bytes (od -A n -v -t u1): the names that it needs, whether it has
# memory of its own, and every instruction. The archive's members are ELF objects whose code stands in sections with nothing else in
# them, so that decoding from a section's start must end exactly at its end. An instruction that is not on the list below is
# refused: the list is of what every x86-64 processor has (SSE2), and leaves out what would reach outside or differ from machine
# to machine: x87, MMX, SSE3 and later, AVX, FMA, reciprocals by estimate, popcnt and its like, cpuid, the clock, system calls,
# loads of the floating-point state. Run by 'make boundary-machine'; NEEDED is the names, one space between two, in order.

{ for (i = 1; i <= NF; i++) b[size++] = $i + 0 }

function u16(p) { return b[p] + 256 * b[p + 1] }
function u32(p) { return u16(p) + 65536 * u16(p + 2) }
function u64(p) { return u32(p) + 4294967296 * u32(p + 4) }
function text(p,    s) { while (b[p]) s = s sprintf("%c", b[p++]); return s }
function field(p, n,    s) { while (n--) s = s sprintf("%c", b[p++]); return s }
function fail(why) { print "machine: " why; bad = 1; exit 1 }
function hex(p, n,    s) { while (n--) s = s sprintf(" %02x", b[p++]); return s }

# Opcodes from a to z: kind M has a ModRM byte; the digit behind it is the bytes of its constant, v 4 or (behind 66) 2, q 8 behind REX.W.
function allow(a, z, kind) { for (; a <= z; a++) one[a] = kind }
# The same behind 0F, by prefix: n none, 66, f2, f3.
function allow2(a, z, prefixes, kind,    list, k, n) {
    n = split(prefixes, list, " ")
    for (; a <= z; a++) for (k = 1; k <= n; k++) two[list[k], a] = kind
}

function lists(    k) {
    for (k = 0; k < 64; k += 8) { allow(k, k + 3, "M0"); allow(k + 4, k + 4, "1"); allow(k + 5, k + 5, "v") } # add .. cmp
    allow(80, 95, "0")                                   # push, pop
    allow(99, 99, "M0")                                  # movsxd
    allow(104, 104, "v"); allow(106, 106, "1")           # push
    allow(105, 105, "Mv"); allow(107, 107, "M1")         # imul
    allow(112, 127, "1")                                 # jumps
    allow(128, 128, "M1"); allow(129, 129, "Mv"); allow(131, 131, "M1")
    allow(132, 139, "M0"); allow(141, 141, "M0")         # test, xchg, mov, lea
    allow(144, 153, "0")                                 # nop, xchg, cdqe, cqo
    allow(164, 165, "0"); allow(170, 171, "0")           # movs, stos
    allow(168, 168, "1"); allow(169, 169, "v")           # test
    allow(176, 183, "1"); allow(184, 191, "q")           # mov
    allow(192, 193, "M1"); allow(208, 211, "M0")         # shifts
    allow(195, 195, "0"); allow(201, 201, "0")           # ret, leave
    allow(198, 198, "M1"); allow(199, 199, "Mv")         # mov
    allow(232, 233, "v"); allow(235, 235, "1")           # call, jmp
    allow(246, 247, "G"); allow(254, 255, "M0")          # test, not, neg, mul, div; inc, dec, call, jmp, push

    allow2(11, 11, "n", "0")                             # ud2
    allow2(16, 17, "n 66 f2 f3", "M0")                   # movups, movsd and their like
    allow2(18, 23, "n 66", "M0")                         # movlpd, unpcklpd, movhpd
    allow2(30, 31, "n 66 f3", "M0")                      # nop, endbr64
    allow2(40, 41, "n 66", "M0")                         # movaps
    allow2(42, 42, "f2 f3", "M0"); allow2(44, 45, "f2 f3", "M0") # between whole numbers and floats
    allow2(46, 47, "n 66", "M0")                         # ucomisd
    allow2(64, 79, "n 66", "M0")                         # cmov
    allow2(80, 80, "n 66", "M0")                         # movmskpd
    allow2(81, 81, "n 66 f2 f3", "M0")                   # sqrt
    allow2(84, 87, "n 66", "M0")                         # and, or, xor
    allow2(88, 90, "n 66 f2 f3", "M0"); allow2(91, 91, "n 66 f3", "M0")
    allow2(92, 95, "n 66 f2 f3", "M0")                   # add, mul, sub, min, div, max and conversions
    allow2(96, 111, "66", "M0"); allow2(111, 111, "f3", "M0")    # whole numbers in SSE2 registers
    allow2(112, 112, "66 f2 f3", "M1"); allow2(113, 115, "66", "M1")
    allow2(116, 118, "66", "M0"); allow2(126, 127, "66 f3", "M0")
    allow2(128, 143, "n", "v")                           # jumps
    allow2(144, 159, "n", "M0")                          # set
    allow2(163, 163, "n 66", "M0"); allow2(186, 186, "n 66", "M1") # bt
    allow2(164, 164, "n 66", "M1"); allow2(165, 165, "n 66", "M0"); allow2(172, 172, "n 66", "M1"); allow2(173, 173, "n 66", "M0") # shld, shrd
    allow2(175, 175, "n 66", "M0")                       # imul
    allow2(182, 183, "n 66", "M0"); allow2(190, 191, "n 66", "M0") # movzx, movsx
    allow2(188, 189, "n 66", "M0")                       # bsf, bsr
    allow2(188, 188, "f3", "M0")                         # rep bsf, as compilers write it: of a number that is not 0 every processor gives the same
    allow2(194, 194, "n 66 f2 f3", "M1"); allow2(198, 198, "n 66", "M1") # cmpsd, shufpd
    allow2(196, 197, "66", "M1")                         # pinsrw, pextrw
    allow2(200, 207, "n", "0")                           # bswap
    allow2(209, 239, "66", "M0"); allow2(241, 254, "66", "M0"); allow2(230, 230, "f2 f3", "M0")
}

# The length of the instruction at p.
function length_at(p,    q, wide, rex, rep, kind, op, m, mod, rm, n) {
    q = p
    wide = 4; rex = 0; rep = ""
    for (;; q++) {
        if (b[q] == 102) wide = 2                        # 66
        else if (b[q] == 242) rep = "f2"
        else if (b[q] == 243) rep = "f3"
        else if (b[q] != 46) break                       # 2e, which pads a nop
    }
    if (b[q] >= 64 && b[q] <= 79) rex = b[q++]
    op = b[q++]
    if (op == 15) {
        op = b[q++]
        kind = two[rep != "" ? rep : wide == 2 ? "66" : "n", op]
    } else kind = one[op]
    if (kind == "") return 0
    if (kind ~ /^[MG]/) {
        m = b[q++]
        mod = int(m / 64); rm = m % 8
        if (mod != 3) {
            if (rm == 4) { if (mod == 0 && b[q] % 8 == 5) q += 4; q++ }
            else if (mod == 0 && rm == 5) q += 4
            q += mod == 1 ? 1 : mod == 2 ? 4 : 0
        }
        kind = kind == "G" ? (int(m / 8) % 8 > 1 ? "0" : op == 246 ? "1" : "v") : substr(kind, 2)
    }
    n = kind == "v" ? (op >= 128 && op <= 143 || op == 232 || op == 233 ? 4 : wide) : kind == "q" ? (rex >= 72 ? 8 : wide) : kind
    return q + n - p
}

function code(from, to, name,    p, n) {
    for (p = from; p < to; p += n) {
        n = length_at(p)
        if (!n) fail("an instruction of " name " is none that every x86-64 processor has:" hex(p, 8))
        instructions++
    }
    if (p != to) fail("the code of " name " does not end with an instruction")
    bytes += to - from
}

function object(at,    heads, count, names, k, p, flags, type, from, long, s, n, strings) {
    if (hex(at, 5) != " 7f 45 4c 46 02" || u16(at + 18) != 62) fail("a member is no object for x86-64")
    heads = at + u64(at + 40); count = u16(at + 60)
    names = at + u64(heads + 64 * u16(at + 62) + 24)
    for (k = 0; k < count; k++) {
        p = heads + 64 * k
        type = u32(p + 4); flags = u64(p + 8); from = at + u64(p + 24); long = u64(p + 32)
        if (flags % 2 && long) fail("it has memory of its own: " text(names + u32(p)))
        if (int(flags / 4) % 2) code(from, from + long, text(names + u32(p)))
        if (type != 2) continue
        strings = at + u64(heads + 64 * u32(p + 40) + 24)
        for (s = from + 24; s < from + long; s += 24)
            if (u16(s + 6) == 0) needed[text(strings + u32(s))]
    }
}

END {
    if (bad) exit 1
    lists()
    for (at = 8; at < size; at += 60 + long + long % 2) {
        long = field(at + 48, 10) + 0
        if (field(at, 1) != "/" || field(at, 2) ~ /^\/[0-9]/) object(at + 60)
    }
    for (name in needed) found[++count] = name
    for (i = 1; i <= count; i++) for (j = i + 1; j <= count; j++) if (found[j] < found[i]) { name = found[i]; found[i] = found[j]; found[j] = name }
    for (i = 1; i <= count; i++) list = list (i > 1 ? " " : "") found[i]
    if (list != NEEDED) fail("it needs " list ", where " NEEDED " was expected")
    print "machine: needs " list "; no memory of its own; " bytes " bytes of code, " instructions " instructions, all of x86-64 with SSE2"
}
