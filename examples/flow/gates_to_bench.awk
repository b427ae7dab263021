# Prints a mapped BLIF file of berkeley-abc as a .bench netlist. Names stay as they are. A gate's
# kind is its cell's name without the number of inputs behind it.
{ line = line $0 }
sub(/\\$/, "", line) { next }
{ $0 = line; line = "" }

$1 == ".inputs" { for (place = 2; place <= NF; place++) print "INPUT(" $place ")" }
$1 == ".outputs" { for (place = 2; place <= NF; place++) print "OUTPUT(" $place ")" }
$1 == ".latch" { print $3 " = DFF(" $2 ")" }

# A constant is a signal that no register and no gate drives.
$1 == ".gate" && ($2 == "ZERO" || $2 == "ONE") { print "INPUT(" signal($NF) ")"; next }

$1 == ".gate" {
    kind = $2
    sub(/[0-9]+$/, "", kind)
    inputs = ""
    for (place = 3; place < NF; place++) inputs = inputs (place > 3 ? ", " : "") signal($place)
    print signal($NF) " = " kind "(" inputs ")"
}

# The signal of a pin that stands as PIN=SIGNAL.
function signal(pin) { return substr(pin, index(pin, "=") + 1) }
