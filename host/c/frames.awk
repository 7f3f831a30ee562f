# Adds up stack frames. Reads `objdump -dr --no-show-raw-insn` of the library and prints, for each exported function, the
# most bytes that any path of calls has on the stack. Says what it doesn't know how to count, with status 1.
/^[0-9a-f]+ <.*>:$/ {
  name = $0
  sub(/^[0-9a-f]+ </, "", name)
  sub(/>:$/, "", name)
  there[name] = 1
}
# a call's target stands in the relocation below it
called != "" && $0 !~ /R_X86_64_PLT32/ { unknown(called ": a call without a relocation") }
{ called = "" }
/\tcall / { called = name }
/R_X86_64_PLT32/ {
  to = $3
  sub(/^\.text\./, "", to)
  sub(/[-+]0x[0-9a-f]+$/, "", to)
  callees[name] = callees[name] " " to
}
/\tpush / { pushed[name] += 8 }
# what an epilogue gives back is the frame
/\tadd +\$0x[0-9a-f]+,%rsp/ {
  n = $0
  sub(/.*\$0x/, "", n)
  sub(/,%rsp.*/, "", n)
  n = number(n)
  if (n > frame[name]) frame[name] = n
}
/\tsub +\$0x[0-9a-f]+,%rsp/ { taken[name] = 1 }
# a jump by the function's own table of places stays in the function, and takes nothing
/R_X86_64_PC32/ {
  at = $3
  sub(/^\.rodata\./, "", at)
  sub(/[-+]0x[0-9a-f]+$/, "", at)
  if (at == name) table = name
}
/\tmovslq +\(%r[a-z0-9]+,%r[a-z0-9]+,4\)/ && table == name { read = NR }
/\tjmp +\*%/ && read && NR - read <= 4 { read = 0; next }
/\t(call|jmp) +\*/ { unknown(name ": an indirect call") }
/\t(and|sub|add|lea|mov) .*,%rsp/ && $0 !~ /\t(sub|add) +\$0x/ { unknown(name ":" $0) }

END {
  for (f in taken) if (!frame[f]) unknown(f ": a frame that is not given back")
  for (f in there) if (f ~ /^interface4w?_/) print f, depth(f)
  exit bad
}

function unknown(what) {
  print "unknown: " what > "/dev/stderr"
  bad = 1
}
function number(hex,   i, n) {
  n = 0
  for (i = 1; i <= length(hex); i++) n = 16 * n + index("0123456789abcdef", substr(hex, i, 1)) - 1
  return n
}
# with the return address; below the last frame are 128 bytes that it may use without taking them
function depth(f,   i, count, list, most, d) {
  if (f in known) return known[f]
  if (!(f in there)) {
    if (f !~ /^(memcpy|memmove|memset)$/) unknown(f ": not in the library")
    return 8
  }
  if (f in open) {
    unknown(f ": calls itself")
    return 0
  }
  open[f] = 1
  most = 128
  count = split(callees[f], list, " ")
  for (i = 1; i <= count; i++) {
    d = depth(list[i])
    if (d > most) most = d
  }
  delete open[f]
  known[f] = 8 + pushed[f] + frame[f] + most
  return known[f]
}
