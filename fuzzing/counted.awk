# Reads what objdump -drst --no-show-raw-insn says of a library and writes it as assembly with a mark in front of each block, in the
# sections where libFuzzer looks for the counters of a compiler. The mark is a store, which changes no register and no flag. The library's
# constants, of sixteen bytes each, are written out behind it.

function fail(what) {
    print "counted.awk: " what > "/dev/stderr"
    failed = 1
    exit 1
}

# a label for an address of the function at hand
function label(address) { return ".L" functions "_" address }

# tells libFuzzer that the block at hand was reached, and whether it is a function's first
function mark(entry) {
    print "  movb $1, .Lcounters+" blocks++ "(%rip)"
    table = table "  .quad " label(address) ", " entry "\n"
}

# the second reading has every target, and where each constant lies
NR == FNR {
    if ($2 == "l" && $3 == ".rodata.cst16") constant[$NF] = $1
    if (/^[0-9a-f]+ <.*>:$/) functions++
    if ($2 ~ /^j/) target[functions, $3] = 1
    next
}
FNR == 1 { functions = 0 }

# sixteen bytes of a section in a line
/^Contents of section / { constants = $NF == ".rodata.cst16:" }
/^Disassembly of section / { constants = 0 }
constants && /^ [0-9a-f]/ {
    row = "  .byte "
    for (i = 1; i < 32; i += 2) row = row (i > 1 ? ", " : "") "0x" substr($2 $3 $4 $5, i, 2)
    bytes = bytes row "\n"
    next
}

/^[0-9a-f]+ <.*>:$/ {
    functions++
    name = substr($2, 2, length($2) - 3)
    if (name ~ /^hr_/) print ".globl \"" name "\""
    print "\"" name "\":"
    begins = 1
    entry = 1
    next
}

# a call's target stands in the line behind it
/R_X86_64_PLT32/ {
    sub(/^\.text\./, "", $3)
    sub(/-0x4$/, "", $3)
    print "  call \"" $3 "\""
    next
}
# so does a constant's name
waiting != "" && /R_X86_64_PC32/ && sub(/-0x4$/, "", $3) && $3 in constant {
    sub(/0x0\(%rip\)/, ".Lconstants+0x" constant[$3] "(%rip)", waiting)
    print "  " waiting
    waiting = ""
    next
}
/R_X86_64/ { fail("a relocation that is neither a call nor a constant: " $0) }
waiting != "" { fail("an address that is not known: " waiting) }
$1 !~ /^[0-9a-f]+:$/ { next }

{
    address = substr($1, 1, length($1) - 1)
    print label(address) ":"
}
$2 ~ /^(nop|data16|cs)/ { next }
# a block begins where something jumps to, and behind a jump
{
    if (begins || (functions, address) in target) mark(entry)
    begins = $2 ~ /^j/
    entry = 0
}
/\*/ { fail("an address that is not known: " $0) }
$2 ~ /^j/ {
    print "  " $2 " " label($3)
    next
}
$2 == "call" { next }
{
    sub(/^[^\t]*\t/, "")
    sub(/ *[#<].*$/, "")
    if (/%rip/) waiting = $0
    else print "  " $0
}

END {
    if (failed) exit 1
    if (bytes != "") printf ".section .rodata,\"a\",@progbits\n.balign 16\n.Lconstants:\n%s", bytes
    print ".section __sancov_cntrs,\"aw\",@progbits\n.Lcounters:\n  .zero " blocks
    printf ".section __sancov_pcs,\"aw\",@progbits\n.balign 8\n%s", table
    print ".section .note.GNU-stack,\"\",@progbits"
}
