# How much stack each function of an object file or archive takes at most, whatever it is given, worked out from its instructions.
#
#   { objdump -r FILE; objdump -dr -w --no-show-raw-insn FILE; } | awk -v calls="NAME .." -v outside="NAME .." -f tests/stack.awk
#
# For each of the calls a line, `NAME BYTES` or `NAME refused: WHY`. Of the functions named as outside nothing is counted but the return
# address; one that is neither in FILE nor named so is refused.
#
# The depth of an instruction is how many bytes the stack pointer stands below where it stood before the function was called: 8 at the
# function's first instruction, for the return address. It is followed along all jumps, whether or not they can be taken. Where two ways
# come together the depth must be the same on both, else it would depend on the input, and at `ret` it must be 8 again. So the depth is a
# number that belongs to the instruction, and a function takes the largest of
#   - the depth of each instruction, and below it 128 bytes that the calling convention lends (the red zone);
#   - for each call, the depth there and what the function called takes, which includes its return address.
# The arguments that a caller puts on the stack are the caller's.
#
# Known changes of the stack pointer:
#   push, pop            8 bytes
#   add, sub, lea        by a number, of which 8 is a factor
#   and                  by a negative power of two: the largest loss, since the stack pointer is a multiple of 8
#   by rbp               mov, lea and leave, where rbp holds a depth that is known. That a call gives rbp back is believed
#   a loop that probes   as the compiler writes it for a large frame: it goes down by N bytes, a page at a time
# Any other instruction that changes it is refused. So are a call or jump by way of a register or of memory, but for the jump by a table:
# it is followed to every entry. That it leads to no other place is seen so: no address of a function stands in data or is taken by an
# instruction; every address of an instruction that stands in data belongs to a table, and the one function that names the table is the
# one that its entries lead into. Refused are also recursion, an instruction that no way leads to (but for padding), and a function
# whose last instruction goes on.

# A number as objdump writes it: 0x and up to 16 digits, negative as two's complement or with a sign.
function number(text,    sign, flip, value, digit, i) {
    sign = 1
    if (sub(/^-/, "", text)) sign = -1
    sub(/^\+/, "", text)
    sub(/^0x/, "", text)
    flip = length(text) == 16 && text ~ /^[89a-f]/
    value = 0
    for (i = 1; i <= length(text); i++) {
        digit = index("0123456789abcdef", substr(text, i, 1)) - 1
        value = 16 * value + (flip ? 15 - digit : digit)
    }
    return sign * (flip ? -value - 1 : value)
}

# The operands of an instruction, in `operand`: its commas but for those in parentheses stand between them.
function operands_of(text,    count, depth, i, c) {
    split("", operand)
    if (text == "") return 0
    count = 1
    depth = 0
    for (i = 1; i <= length(text); i++) {
        c = substr(text, i, 1)
        if (c == "(") depth++
        if (c == ")") depth--
        if (c == "," && depth == 0) count++
        else operand[count] = operand[count] c
    }
    return count
}

function refuse(f, i, reason) {
    if (!(f in refused)) refused[f] = name[f] " at " at[i] ": " reason
}

# `value` of a relocation taken apart: the symbol or section, and what is added.
function take_apart(value) {
    added = 0
    if (match(value, /[-+]0x[0-9a-f]+$/)) {
        added = number(substr(value, RSTART))
        value = substr(value, 1, RSTART - 1)
    }
    return value
}

# The function that begins at, or has, a place of a section; 0 if there is none.
function begins(object, section, place) {
    return (object, section, place) in function_at ? function_at[object, section, place] : 0
}
function has(object, section, place) {
    return (object, section, place) in instruction_at ? function_of[instruction_at[object, section, place]] : 0
}

# The function that a symbol names: in the same object file, else in any.
function named(object, symbol) {
    if ((object, symbol) in by_name) return by_name[object, symbol]
    return symbol in by_global_name ? by_global_name[symbol] : 0
}

/file format/ { object = $1; next }
/^RELOCATION RECORDS FOR / {
    data = $0
    sub(/^RELOCATION RECORDS FOR \[/, "", data)
    sub(/\]:$/, "", data)
    next
}
/^Disassembly of section / {
    section = $0
    sub(/^Disassembly of section /, "", section)
    sub(/:$/, "", section)
    code[object, section] = 1
    next
}
# the addresses that stand in data; those of the tables for unwinding and debugging no instruction reads
/^[0-9a-f]+ R_/ {
    if (data ~ /^\.(text|eh_frame|debug|llvm|gcc_except)/) next
    entries++
    entry_object[entries] = object
    entry_section[entries] = data
    entry_place[entries] = number($1)
    entry_type[entries] = $2
    sub(/^[^ ]+ +[^ ]+ +/, "")
    entry_value[entries] = $0
    next
}
/^[0-9a-f]+ <.*>:$/ {
    functions++
    name[functions] = $0
    sub(/^[0-9a-f]+ </, "", name[functions])
    sub(/>:$/, "", name[functions])
    object_of[functions] = object
    section_of[functions] = section
    function_at[object, section, number($1)] = functions
    first[functions] = instructions + 1
    by_name[object, name[functions]] = functions
    # two functions of one name, each seen in its own object file alone: a name from elsewhere tells neither
    if (name[functions] in by_global_name) by_global_name[name[functions]] = 0
    else by_global_name[name[functions]] = functions
    next
}
/^ *[0-9a-f]+:\t/ {
    instructions++
    count = split($0, part, "\t")
    sub(/^ */, "", part[1])
    sub(/:$/, "", part[1])
    at[instructions] = part[1]
    text = part[2]
    sub(/ *#.*$/, "", text)
    sub(/ +$/, "", text)
    while (text ~ /^(notrack|bnd|rep|repz|repnz|lock|data16|addr32|[cdefgs]s|rex[.A-Z]*) /) sub(/^[^ ]+ +/, "", text)
    mnemonic[instructions] = text
    sub(/ .*$/, "", mnemonic[instructions])
    rest[instructions] = text
    sub(/^[^ ]+ */, "", rest[instructions])
    if (count > 2) {
        relocation[instructions] = part[3]
        sub(/^.* /, "", relocation[instructions])
        value_of[instructions] = part[4]
        if (count > 4) relocation[instructions] = "two"
    }
    function_of[instructions] = functions
    last[functions] = instructions
    instruction_at[object, section, number(part[1])] = instructions
}

# Whether an instruction goes elsewhere: a jump, a call, or one of the instructions that jump if rcx is 0.
function is_branch(i) {
    return mnemonic[i] ~ /^(j[a-z]+|callq?|loopn?e?)$/
}

# Where a branch goes: sets `to_function`, or `to_instruction` within the same function, or `to_outside`. False if that is not known.
function target_of(f, i,    symbol, place, section) {
    to_function = to_instruction = 0
    to_outside = ""
    if (i in relocation) {
        if (relocation[i] !~ /^R_X86_64_(PLT32|PC32)$/) return 0
        symbol = take_apart(value_of[i])
        place = added + 4
        if ((object_of[f], symbol) in code) section = symbol
        else {
            to_function = named(object_of[f], symbol)
            if (to_function == f) to_instruction = first[f]
            if (!to_function && index(" " outside " ", " " symbol " ")) to_outside = symbol
            return place == 0 && (to_function || to_outside != "")
        }
    } else {
        if (rest[i] !~ /^[0-9a-f]+ /) return 0
        section = section_of[f]
        place = rest[i]
        sub(/ .*$/, "", place)
        place = number(place)
    }
    if (section == section_of[f] && has(object_of[f], section, place) == f)
        to_instruction = instruction_at[object_of[f], section, place]
    to_function = begins(object_of[f], section, place)
    return to_instruction || to_function
}

# One more way to an instruction, with a depth and with what rbp holds there: a depth, or "" where that is not known.
function reach(f, from, i, new_depth, new_base) {
    if (i > last[f]) return refuse(f, from, "goes on after the function's last instruction")
    if (new_depth < 8) return refuse(f, from, "takes more off the stack than it put")
    if (i in probing) return refuse(f, from, "leads into a loop that probes")
    if (!(i in depth_at)) {
        depth_at[i] = new_depth
        base_at[i] = new_base
    } else if (depth_at[i] != new_depth) {
        return refuse(f, i, "the stack has " depth_at[i] " or " new_depth " bytes")
    } else if (base_at[i] != new_base && base_at[i] != "") {
        base_at[i] = ""
    } else return
    waiting[++ways] = i
}

function note_call(f, callee, depth) {
    call_count[f]++
    callee_of[f, call_count[f]] = callee
    call_depth[f, call_count[f]] = depth
}

# The loop that probes a large frame, from instruction i on: what it takes, or 0. It ends exactly where N is a multiple of its step.
#   mov %rsp,%r11; sub $N,%r11; again: sub $STEP,%rsp; movq $0,(%rsp); cmp %r11,%rsp; jne again
function probe(f, i,    size, step) {
    if (i + 5 > last[f] || mnemonic[i] != "mov" || rest[i] != "%rsp,%r11") return 0
    if (mnemonic[i + 1] != "sub" || rest[i + 1] !~ /^\$0x[0-9a-f]+,%r11$/) return 0
    if (mnemonic[i + 2] != "sub" || rest[i + 2] !~ /^\$0x[0-9a-f]+,%rsp$/) return 0
    if (mnemonic[i + 3] != "movq" || rest[i + 3] != "$0x0,(%rsp)") return 0
    if (mnemonic[i + 4] != "cmp" || rest[i + 4] != "%r11,%rsp") return 0
    if (mnemonic[i + 5] != "jne" || !target_of(f, i + 5) || to_instruction != i + 2) return 0
    operands_of(rest[i + 1])
    size = number(substr(operand[1], 2))
    operands_of(rest[i + 2])
    step = number(substr(operand[1], 2))
    return step > 0 && step % 8 == 0 && size > 0 && size % step == 0 ? size : 0
}

# Memory is reached at or above the stack pointer, or in the red zone below it. An address alone (lea) reaches nothing.
function look_at_memory(f, i, count, depth, base,    k, below, shown) {
    if (mnemonic[i] == "lea") return
    for (k = 1; k <= count; k++) {
        if (operand[k] !~ /\(%r[sb]p[,)]/) continue
        if (operand[k] ~ /\(%rbp/ && base == "") continue
        shown = operand[k]
        sub(/\(.*$/, "", shown)
        if (shown !~ /^(-?0x[0-9a-f]+)?$/) return refuse(f, i, mnemonic[i] " " rest[i])
        below = shown == "" ? 0 : -number(shown)
        if (operand[k] ~ /\(%rsp/) below += depth
        else below += base
        if (below > depth + 128) refuse(f, i, "reaches below the red zone: " mnemonic[i] " " rest[i])
    }
}

# What follows instruction i, which has a known depth.
function follow(f, i,    depth, base, what, count, k, size, text) {
    depth = depth_at[i]
    base = base_at[i]
    what = mnemonic[i]
    text = rest[i] == "" ? what : what " " rest[i]
    if (depth > deepest[f]) deepest[f] = depth

    if ((size = probe(f, i)) > 0) {
        for (k = i + 1; k <= i + 5; k++) probing[k] = 1
        if (depth + size > deepest[f]) deepest[f] = depth + size
        return reach(f, i, i + 6, depth + size, base)
    }
    if (what ~ /^(retq?)$/) {
        if (depth != 8 || rest[i] != "") refuse(f, i, text " with " depth " bytes on the stack")
        return
    }
    if (what ~ /^(ud2|hlt|int3)$/) return
    if (is_branch(i)) {
        if (rest[i] ~ /^\*/) {
            if (what !~ /^jmpq?$/) return refuse(f, i, text)
            if (!(f in tables)) return refuse(f, i, text ", no table")
            for (k = 1; k <= table_entries[f]; k++) reach(f, i, table_entry[f, k], depth, base)
            return
        }
        if (!target_of(f, i)) return refuse(f, i, "goes where nothing is known of: " text " " value_of[i])
        if (what ~ /^callq?$/) {
            if (to_outside == "" && !to_function) return refuse(f, i, "calls into a function: " text)
            note_call(f, to_outside != "" ? to_outside : to_function, depth)
        } else if (to_instruction) {
            reach(f, i, to_instruction, depth, base)
        } else {
            if (depth != 8) refuse(f, i, "leaves with " depth " bytes on the stack: " text)
            note_call(f, to_outside != "" ? to_outside : to_function, depth - 8)
        }
        if (what !~ /^jmpq?$/) reach(f, i, i + 1, depth, base)
        return
    }
    if (i in relocation) {
        k = take_apart(value_of[i])
        if (relocation[i] == "two" || (object_of[f], k) in code || named(object_of[f], k))
            return refuse(f, i, "takes an address of code: " text)
    } else if (rest[i] ~ /\(%rip\)/) return refuse(f, i, "takes an address of code: " text)

    count = operands_of(rest[i])
    look_at_memory(f, i, count, depth, base)
    if (what ~ /^(pushq?|popq?)$/ && count == 1) {
        if (operand[1] ~ /^%([abcd]x|[sd]i|[sb]p|r[0-9]+w)$/) return refuse(f, i, text)
        if (what ~ /^push/) return reach(f, i, i + 1, depth + 8, base)
        if (operand[1] == "%rsp") return refuse(f, i, text)
        return reach(f, i, i + 1, depth - 8, operand[1] == "%rbp" ? "" : base)
    }
    if (what ~ /^pushfq?$/) return reach(f, i, i + 1, depth + 8, base)
    if (what ~ /^popfq?$/) return reach(f, i, i + 1, depth - 8, base)
    if (what ~ /^leaveq?$/) {
        if (base == "") return refuse(f, i, text ", rbp is not known")
        return reach(f, i, i + 1, base - 8, "")
    }
    if (what ~ /^(push.*|pop|pop[aqw].*|enter.*|iret.*|int|into|int1|sys.*|uiret|l(ret|call|jmp).*|x(begin|abort|end)|\(bad\)|\..*)$/)
        return refuse(f, i, text)

    if (count == 2 && operand[2] == "%rsp" && what !~ /^(cmp|test)$/) {
        if (what ~ /^(add|sub|and)$/ && operand[1] ~ /^\$0x/) {
            size = number(substr(operand[1], 2))
            if (what == "and") {
                size = -size
                for (k = 8; k < size; k += k) continue
                if (k != size) return refuse(f, i, text)
                return reach(f, i, i + 1, depth + size - 8, base)
            }
            if (size % 8) return refuse(f, i, text)
            return reach(f, i, i + 1, what == "sub" ? depth + size : depth - size, base)
        }
        if (what == "lea" && operand[1] ~ /^-?0x[0-9a-f]+\(%r[sb]p\)$/) {
            size = operand[1]
            sub(/\(.*$/, "", size)
            size = number(size)
            if (size % 8) return refuse(f, i, text)
            if (operand[1] ~ /%rsp/) return reach(f, i, i + 1, depth - size, base)
            if (base == "") return refuse(f, i, text ", rbp is not known")
            return reach(f, i, i + 1, base - size, base)
        }
        if (what == "mov" && operand[1] == "%rbp" && base != "") return reach(f, i, i + 1, base, base)
        return refuse(f, i, text)
    }
    if (text == "mov %rsp,%rbp") return reach(f, i, i + 1, depth, depth)

    # a register stands by itself as the first of two operands where it is read; else it may be written
    for (k = 1; k <= count; k++) {
        if (what ~ /^(cmp|test)[bwlq]?$/ || (count == 2 && k == 1 && what !~ /^(xchg|xadd)/)) continue
        if (operand[k] ~ /^%(rsp|esp|spl?)$/) return refuse(f, i, text)
        if (operand[k] ~ /^%(rbp|ebp|bpl?)$/) base = ""
    }
    reach(f, i, i + 1, depth, base)
}

function analyse(f,    i) {
    ways = 0
    deepest[f] = 0
    reach(f, first[f], first[f], 8, "")
    while (ways > 0 && !(f in refused)) follow(f, waiting[ways--])
    for (i = first[f]; i <= last[f] && !(f in refused); i++)
        if (i in depth_at && i in probing)
            refuse(f, i, "leads into a loop that probes")
        else if (!(i in depth_at) && !(i in probing) && mnemonic[i] !~ /^(nop[wl]?|int3|ud2)$/ && rest[i] != "%ax,%ax")
            refuse(f, i, "no way leads to " mnemonic[i] " " rest[i])
}

# What a function takes at most, with all that it calls; -1 where that is refused, with the reason in `reason`.
function stack_of(f,    k, most, of_callee) {
    if (f in most_of) return most_of[f]
    if (f in refused) {
        reason = refused[f]
        return -1
    }
    if (f in open) {
        reason = name[f] " calls itself, maybe by way of others"
        return -1
    }
    open[f] = 1
    most = deepest[f] + 128
    for (k = 1; k <= call_count[f]; k++) {
        of_callee = callee_of[f, k] in name ? stack_of(callee_of[f, k]) : 8
        if (of_callee < 0) {
            most = -1
            break
        }
        if (call_depth[f, k] + of_callee > most) most = call_depth[f, k] + of_callee
    }
    delete open[f]
    if (most >= 0) most_of[f] = most
    return most
}

# Notes that a function names a place of a section, or that more than one does.
function name_place(object, section, place, f) {
    if (!((object, section, place) in owner)) owner[object, section, place] = f
    else if (owner[object, section, place] != f) owner[object, section, place] = 0
}

# The tables of data sections. A table begins where an instruction names it, and goes on to the next place that one names. Where an entry
# is 4 bytes it holds how far its instruction is from the table's beginning.
function read_tables(    i, e, symbol, f, start, place, target) {
    for (i = 1; i <= instructions; i++)
        if (i in relocation && (!is_branch(i) || rest[i] ~ /^\*/)) {
            symbol = take_apart(value_of[i])
            if (relocation[i] ~ /PC/) added += 4
            name_place(object_of[function_of[i]], symbol, added, function_of[i])
        }
    for (e = 1; e <= entries; e++) {
        symbol = take_apart(entry_value[e])
        f = named(entry_object[e], symbol)
        if (!((entry_object[e], symbol) in code) && !f) continue
        for (start = entry_place[e]; start >= 0 && !((entry_object[e], entry_section[e], start) in owner); start -= 4) continue
        place = added
        if (entry_type[e] == "R_X86_64_PC32") place -= entry_place[e] - start
        f = start < 0 ? 0 : owner[entry_object[e], entry_section[e], start]
        target = (entry_object[e], symbol, place) in instruction_at ? instruction_at[entry_object[e], symbol, place] : 0
        if (!f || !target || function_of[target] != f || target == first[f] || entry_type[e] !~ /^R_X86_64_(PC32|64)$/) {
            stray = entry_section[e] " holds an address of code that is no entry of a table"
            continue
        }
        tables[f] = 1
        table_entry[f, ++table_entries[f]] = target
    }
}

END {
    read_tables()
    for (f = 1; f <= functions; f++) analyse(f)
    count = split(calls, call, " ")
    for (i = 1; i <= count; i++) {
        split("", open)
        f = call[i] in by_global_name ? by_global_name[call[i]] : 0
        if (!f) print call[i] " refused: there is no such function, or more than one"
        else if (stray != "") print call[i] " refused: " stray
        else if ((most = stack_of(f)) < 0) print call[i] " refused: " reason
        else print call[i] " " most
    }
}
