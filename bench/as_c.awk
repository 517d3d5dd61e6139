# Writes a generated module as a program in C that writes the same. It knows the lines of generated
# modules alone. Signed sums wrap where the program is compiled with -fwrapv. No header is included:
# where gcc -m32 compiles, those for 32 bits may be missing.
/^MODULE/ {
    print "typedef int int32_t;\nint printf(const char *, ...);\nint putchar(int);"
    print "/* DIV by a number above 0 is rounded down. */"
    print "static inline int32_t quotient(int32_t x, int32_t y) { return x / y - (x % y < 0); }"
    next
}
/^PROCEDURE/ {
    match($2, /P[0-9]+/)
    print "void " substr($2, 1, RLENGTH) "(int32_t a, int32_t b, int32_t *r) {"
    inside = 1
    next
}
/^VAR/ { sub(/^VAR/, "int32_t"); sub(/: INTEGER/, ""); print; next }
/^BEGIN/ { if (!inside) print "int main(void) {"; next }
/^WHILE/ { print "while (" $2 " " $3 " " $4 ") {"; next }
/^END P/ || /^END G/ { print "}"; inside = 0; next }
/^END/ { print "}"; next }
/^r :=/ { sub(/^r :=/, "*r ="); sub(/$/, ";"); print; next }
/^WriteLn/ { print "putchar('\\n');"; next }
/^P[0-9]+\(/ { sub(/, s\)/, ", \\&s)"); sub(/Write\(s\)/, "printf(\" %d\", s)"); print; next }
$4 == "DIV" { sub(/;/, ""); print $1 " = quotient(" $3 ", " $5 ");"; next }
/:=/ { gsub(/:=/, "="); sub(/;?$/, ";"); print; next }
{ print "#error a line that is not known: " $0 }
