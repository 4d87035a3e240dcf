# host/tests/frames.awk: the bytes of stack that each exported call needs at most, from its return address down, a line for each: name, bytes.
#   { objdump -r LIBRARY; objdump -dr --no-show-raw-insn LIBRARY; } | awk -f host/tests/frames.awk
# They are read off the machine code, along every path and with the callees', so they hold for all inputs. Where there is no such number
# (recursion, a frame of a length that is worked out, two depths at one place, a function called by its address), or the stack pointer or the
# flow is handled in a way that is not followed here, one line says so and the status is 1. memset counts with its return address alone.

function wrong(text) {
	print "frames: " where text
	failed = 1
	exit 1
}

# 16 digits are a number below 0.
function hex(digits, n, i) {
	sub(/^(0x)?0*/, "", digits)
	if (length(digits) == 16) return hex(substr(digits, 9)) - 4294967296
	for (i = 1; i <= length(digits); i++) n = 16 * n + index("0123456789abcdef", substr(digits, i, 1)) - 1
	return n + 0
}

# ---- what is read: line[f, 1 .. lines[f]] are the instructions of function f, place[f, address] the number of one, named[f, i] what its
# ---- relocation names; entry[f, 1 .. entries[f]] and origin[f, ..] are the words of f's jump tables and where they lie, base[f, ..] where tables begin

/^RELOCATION RECORDS FOR \[/ {
	section = $4
	gsub(/^\[|\]:$/, "", section)
}

/^Disassembly of section / { section = "" }

# Data may name code in a table of jumps within one function; what instructions name is listed beside them, and what debuggers use is not run.
section != "" && $2 ~ /^R_X86_64_/ && section !~ /^\.(text|eh_frame)/ {
	f = section
	sub(/^\.rodata\./, "", f)
	where = section " "
	if (section !~ /^\.rodata\./ || index($3, ".text." f "+0x") != 1) wrong("names " $3)
	entry[f, ++entries[f]] = hex(substr($3, length(".text." f "+0x") + 1))
	origin[f, entries[f]] = hex($1)
}

/^[0-9a-f]+ <.*>:$/ {
	f = $0
	gsub(/^[0-9a-f]+ <|>:$/, "", f)
	where = f " "
	if (f in lines) wrong("is there twice")
	functions[++count] = f
	lines[f] = 0
}

/^ *[0-9a-f]+:\t/ {
	address = $1
	sub(/:$/, "", address)
	place[f, hex(address)] = ++lines[f]
	sub(/^ *[0-9a-f]+:\t/, "")
	sub(/ +(#.*)?$/, "")
	line[f, lines[f]] = $0
}

section == "" && $2 ~ /^R_X86_64_/ { named[f, lines[f]] = $3 }

# ---- one function: depth[f, i] is the stack in use when instruction i is reached, deepest[f] the most of it, own[f] that with what lies below
# ---- the stack pointer, below[f, callee] the depth at a call

function reach(f, i, d) {
	if (!i || i > lines[f]) wrong("leads out of the function")
	if (!((f, i) in depth)) { depth[f, i] = d; todo[++waiting] = i }
	else if (depth[f, i] != d) wrong("leads on with " d " bytes of stack, another way with " depth[f, i])
}

# The function at whose start the relocation of a call or jump points.
function callee_of(f, i, name) {
	name = named[f, i]
	if (name !~ /-0x4$/) wrong("calls what has no name")
	sub(/^\.text\./, "", name)
	sub(/-0x4$/, "", name)
	return name
}

function calls(f, callee, d) {
	if (!((f, callee) in below)) callees[f] = callees[f] " " callee
	if (d > below[f, callee]) below[f, callee] = d
}

# The depth after an instruction.
function after(text, d, rest) {
	if (text ~ /^push +(%r([abcd]x|[sd]i|bp|8|9|1[0-5])|\$0x[0-9a-f]+)$/) return d + 8
	if (text ~ /^pop +%r([abcd]x|[sd]i|bp|8|9|1[0-5])$/) return d - 8
	rest = text
	if (text ~ /^(sub|add) +\$0x[0-9a-f]+,%rsp$/) {
		gsub(/^[a-z]+ +\$0x|,%rsp$/, "", rest)
		return text ~ /^sub/ ? d + hex(rest) : d - hex(rest)
	}
	gsub(/\(%rsp[,)]|^mov +%rsp,/, "", rest)
	if (text ~ /(^| )(push|pop|enter|leave)/ || rest ~ /%(rsp|esp|spl?)/) wrong("uses the stack pointer in a way that is not followed")
	return d
}

# How far below the stack pointer an operand lies; none does in a function that calls, since what it calls uses those bytes.
function beneath(f, text) {
	if (!match(text, /-0x[0-9a-f]+\(%rsp\)/)) return 0
	if (f in calling) wrong("lies where a callee's frame does")
	return hex(substr(text, RSTART + 3, RLENGTH - 9))
}

# An instruction that may stand before the jump: a move to another register than R, whole or of a byte or word widened, or of a register into the frame or below the stack pointer.
function spares(text, r) {
	return text ~ /^mov(z[bw]l)? +[^*]+,%[er][a-z0-9]+$/ && text !~ (",%[er]" substr(r, 3) "[dwb]?$") || text ~ /^mov +%r[a-z0-9]+,(-?0x[0-9a-f]+)?\(%rsp\)$/
}

# A jump by a table: `movslq (B,X,4),R; add B,R; jmp *R`, with instructions that spare R before the jump, and nothing that leads in between.
function expect_table(f, i, r, k, b) {
	r = line[f, i]
	sub(/^jmp +\*/, "", r)
	for (k = i - 1; k > 2 && spares(line[f, k], r) && !((f, k + 1) in entered); k--) ;
	b = line[f, k]
	gsub(/^add +|,.*/, "", b)
	if (!entries[f] || r !~ /^%r[a-z0-9]+$/ || b !~ /^%r[a-z0-9]+$/ || line[f, k] != "add    " b "," r ||
	    line[f, k - 1] !~ ("^movslq (0x0)?\\(" b ",%r[a-z0-9]+,4\\)," r "$") || (f, k) in entered || (f, k + 1) in entered) wrong("jumps by no table")
}

# It may lead to every word of the function's tables. A word counts from where its table begins.
function jump_by_table(f, i, d, k, o) {
	expect_table(f, i)
	for (k = 1; k <= entries[f]; k++) {
		for (o = origin[f, k]; o >= 0 && !((f, o) in base); o--) ;
		reach(f, place[f, entry[f, k] - origin[f, k] + o], d)
	}
}

# The instruction to which a jump leads that has its target in it.
function target_of(f, text) {
	gsub(/^j[a-z]+ +| <.*/, "", text)
	return place[f, hex(text)]
}

function jump(f, i, text, d) {
	if ((f, i) in named) calls(f, callee_of(f, i), d - 8) # in place of a call and a return
	else if (text ~ /\*/) jump_by_table(f, i, d)
	else reach(f, target_of(f, text), d)
}

function go(f, i, text, d) {
	text = line[f, i]
	where = f ": '" text "' "
	d = after(text, depth[f, i])
	if (d > deepest[f]) deepest[f] = d
	if (d + beneath(f, text) > own[f]) own[f] = d + beneath(f, text)
	if (text ~ /^(loop|xbegin|ljmp|lcall|lret|iret|sys|int)/ || text ~ /.[ ](call|ret|j[a-z]+)( |,|$)/) wrong("is not followed")
	if (text ~ /^ret/ && d != 8) wrong("returns with " d - 8 " bytes still in use")
	if (text ~ /^call/) calls(f, callee_of(f, i), d)
	if (text ~ /^j/) jump(f, i, text, d)
	if (text !~ /^(ret|jmp|ud2)/) reach(f, i + 1, d)
}

# Where tables begin, which instructions are jumped to, whether there is a call and an address on the stack. No function's address is taken.
function survey(f, i, text, name, offset) {
	for (i = 1; i <= lines[f]; i++) {
		text = line[f, i]
		where = f ": '" text "' "
		if (text ~ /^call/) calling[f]
		if (text ~ /\(%rsp,|^mov +%rsp,|^lea .*\(%rsp\)/) pointing[f]
		if (text ~ /^j/ && text !~ /\*/ && !((f, i) in named)) entered[f, target_of(f, text)]
		if (!((f, i) in named) || text ~ /^(call|j)/) continue
		name = offset = named[f, i]
		sub(/[-+]0x[0-9a-f]+$/, "", name)
		offset = substr(offset, length(name) + 2)
		if (name == ".rodata." f) base[f, (named[f, i] ~ /-0x[0-9a-f]+$/ ? -hex(offset) : hex(offset)) + 4]
		if (name ~ /^\.text/ || name in lines) wrong("takes the address of " name)
	}
}

# Where no call is made, and an address on the stack is worked out, all that may be used below the stack pointer is counted: 128 bytes.
function follow(f, i) {
	survey(f)
	reach(f, 1, 8)
	while (waiting) go(f, todo[waiting--])
	if (f in pointing && !(f in calling) && deepest[f] + 128 > own[f]) own[f] = deepest[f] + 128
	for (i = 1; i <= lines[f]; i++) {
		where = f ": '" line[f, i] "' "
		if (!((f, i) in depth) && line[f, i] !~ /nop|^xchg +%ax,%ax$|^int3$|^ud2$/) wrong("is reached by nothing")
	}
}

# ---- a function with its callees

function need(f, n, i, names, most) {
	if (f == "memset") return 8
	if (!(f in lines)) wrong("calls " f ", which is not in the library")
	if (f in needed) return needed[f]
	if (open[f]++) wrong("calls itself, by way of " f)
	most = own[f]
	n = split(callees[f], names, " ")
	for (i = 1; i <= n; i++) {
		where = f " "
		if (below[f, names[i]] + need(names[i]) > most) most = below[f, names[i]] + need(names[i])
	}
	return needed[f] = most
}

function whole_words(bytes) { return int((bytes + 7) / 8) * 8 }

END {
	if (failed) exit 1
	if (!count) wrong("there is no function")
	for (k = 1; k <= count; k++) follow(functions[k])
	for (k = 1; k <= count; k++)
		if (functions[k] !~ /::/) print functions[k], whole_words(need(functions[k]))
}
