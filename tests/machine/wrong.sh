#!/bin/sh
# wrong.sh CLANG AR: that tests/machine/code.awk refuses code that it should. Each line is an object for x86-64 with one thing wrong; the last has none, and passes.
set -eu

clang=$1 ar=$2 tried=0
place=build/tests/wrong
mkdir -p "$place"

# object TEXT: what code.awk says of an archive with an object from this text in C.
object() {
    printf '%s\n' "$1" >"$place/wrong.c"
    "$clang" --target=x86_64-unknown-linux-gnu --no-default-config -O1 -fPIC -w -c "$place/wrong.c" -o "$place/wrong.o"
    rm -f "$place/wrong.a"
    "$ar" rc "$place/wrong.a" "$place/wrong.o"
    od -A n -v -t u1 "$place/wrong.a" | awk -v NEEDED='' -f tests/machine/code.awk >"$place/said"
}
refused() { # WORDS TEXT
    if object "$2" || ! grep -q "$1" "$place/said"; then
        echo "machine: not refused: $2"
        cat "$place/said"
        exit 1
    fi
    tried=$((tried + 1))
}

# shellcheck disable=SC2016 # a dollar is the assembler's
for one in 'vaddpd %ymm0, %ymm1, %ymm2' 'vfmadd231sd %xmm0, %xmm1, %xmm2' 'fld1' 'fldcw (%rsp)' 'ldmxcsr (%rsp)' 'emms' 'haddpd %xmm0, %xmm1' \
    'pshufb %xmm0, %xmm1' 'roundsd $0, %xmm0, %xmm1' 'rcpps %xmm0, %xmm1' 'rsqrtss %xmm0, %xmm1' 'popcnt %rax, %rbx' 'lzcnt %rax, %rbx' 'cpuid' 'rdtsc' 'syscall' \
    'int $0x80' 'xgetbv' 'rdrand %rax'; do
    refused 'is none that every x86-64 processor has' "void f(void) { __asm__ volatile(\"$one\"); }"
done
refused 'memory of its own: .bss' 'static int n; int f(void) { return ++n; }'
refused 'memory of its own: .data' 'int n = 7; int f(void) { return ++n; }'
refused 'it needs sin' 'double sin(double); double f(double x) { return sin(x) + 1; }'
object 'double f(double *a, long n) { double s = 0; for (long i = 0; i < n; i++) s += a[i] * a[n - i] / 3; return s; }' ||
    { cat "$place/said"; exit 1; }
echo "machine: $tried wrong objects, each refused"
