@x = external global i64, align 8
define dso_local i64 @again() {
entry:
  %i = load i64, i64* @x, align 8
  ret i64 %i
}
