# Copies Linux's codel_impl.h with another square root: the greatest one of 16 bits, in place of a step of Newton's.
/^static void codel_Newton_step/ {
	print "static void codel_Newton_step(struct codel_vars *vars)"
	print "{"
	print "\tu32 root = 0;"
	print ""
	print "\tfor (u32 bit = 1u << 15; bit > 0; bit >>= 1)"
	print "\t\tif ((u64)(root | bit) * (root | bit) <= (1ull << 32) / vars->count)"
	print "\t\t\troot |= bit;"
	print "\tvars->rec_inv_sqrt = root;"
	print "}"
	skips = 1
	replaced++
}
!skips { print }
skips && /^}/ { skips = 0 }
END { exit replaced == 1 ? 0 : 1 }
