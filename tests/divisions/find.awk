# find.awk - what divides in the objects that 'objdump -h -t -d -r --no-show-raw-insn' shows: a line each, 'OBJECT: FUNCTION: INSTRUCTION (at ADDRESS)'.
# Of an instruction the mnemonic alone counts, of a function that is called the whole name. Ends with 1 if something divides, and with 2 if there are no
# instructions, or some that cannot be judged.

# of x86, aarch64, arm and riscv: div, idivl, divss, vdivsd, fdivp, fidiv, udiv, sdiv, vdiv.f64, divuw, .. and remainders
function divides(mnemonic) {
	return mnemonic ~ /^(v|i|u|s|f|fi)?div[a-z0-9.]*$/ || mnemonic ~ /^(rem|remu|remw|remuw|fprem|fprem1|aam)$/
}

# the compiler's functions: __udivti3, __moddi3, __udivmodti4, __divdf3, .., __aeabi_uidiv, __aeabi_uldivmod, ..
function compilers(name) {
	return name ~ /^__u?(div|mod|divmod)[a-z]+[0-9]$/ || name ~ /^__aeabi_[a-z]*div(mod)?$/
}

function libraries(name) {
	return name ~ /^(div|ldiv|lldiv|imaxdiv|(fmod|remainder|remquo|drem)[fl]?)$/
}

# what stands before a mnemonic of x86
function prefix(word) {
	return word ~ /^(lock|rep[a-z]*|data16|data32|addr16|addr32|[cdefgs]s|bnd|notrack|xacquire|xrelease|rex[.A-Z]*)$/
}

function found(place, what) {
	print object ": " place ": " what
	divisions++
}

function unjudged(what) {
	print object ": " what
	strange++
}

# The dividing functions that the object asks for, but for those that its instructions name.
function end_object(   name) {
	for (name in asked)
		if (!(name in named))
			found("no function", "asks for " name)
	split("", asked)
	split("", named)
}

/: +file format [^ ]+$/ {
	end_object()
	object = $0
	sub(/: +file format [^ ]+$/, "", object)
	objects++
	next
}

# a section: its number and name
/^ +[0-9]+ \.gnu\.lto_/ {
	unjudged("is not compiled to instructions, section " $2)
	next
}

# a symbol: value, flags, section, a tab, size, perhaps its visibility, name
/^[0-9a-f]+ [^<].*\t[0-9a-f]+ / {
	outside = $0 ~ /\*UND\*\t/
	if (compilers($NF) && !outside)
		found($NF, "is a dividing function of the compiler")
	else if (outside && (compilers($NF) || libraries($NF)))
		asked[$NF] = 1
	next
}

/^[0-9a-f]+ <.*>:$/ {
	place = $0
	sub(/^[0-9a-f]+ </, "", place)
	sub(/>:$/, "", place)
	next
}

# an instruction: address, a colon, a tab, prefixes, mnemonic, operands
/^ *[0-9a-f]+:\t/ {
	instructions++
	address = $1
	sub(/:$/, "", address)
	text = $0
	sub(/^[^\t]*\t/, "", text)
	gsub(/[ \t]+/, " ", text)
	sub(/ $/, "", text)
	count = split(text, words, " ")
	for (n = 1; n < count && prefix(words[n]); )
		n++
	mnemonic = words[n]
	if (mnemonic == "(bad)")
		unjudged(place ": an instruction that objdump does not know (at " address ")")
	if (divides(mnemonic))
		found(place, text " (at " address ")")
	next
}

# what the linker puts into that instruction
/^\t+[0-9a-f]+: R_/ {
	name = $NF
	sub(/[-+]0x[0-9a-f]+$/, "", name)
	if (name in asked) {
		found(place, mnemonic " " name " (at " address ")")
		named[name] = 1
	}
}

END {
	end_object()
	if (objects == 0)
		print "no object in it"
	else if (instructions == 0)
		print "no code in it"
	exit objects == 0 || instructions == 0 || strange > 0 ? 2 : divisions > 0
}
