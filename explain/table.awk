# The kinds and their fields, from Kinds.antt, Format.antt and Table.antt of crates/meaning/specs, as the C table that explain.c goes by.
# It fails on a row that it can't read, where there is no kind or no name of START_DATE, and where a kind lacks its role or fields.

# The rows in a line: man or may, a name, and a form alone or with one or two numbers in parentheses.
function rows(line,    made, row, words, n) {
  made = ""
  while (match(line, /ma[ny] "[A-Z_]+" (\([a-z0-9_]+( [0-9]+)*\)|[a-z_]+)/)) {
    row = substr(line, RSTART, RLENGTH)
    line = substr(line, RSTART + RLENGTH)
    gsub(/[()"]/, "", row)
    n = split(row, words, " ")
    made = made "{\"" words[2] "\", FORM_" words[3] ", " (n > 3 ? words[4] : 0) ", " (n > 4 ? words[5] : 0) ", " (words[1] == "man") "}, "
  }
  return made
}
# The names in quotes in a line.
function names(line,    made) {
  made = ""
  while (match(line, /"[A-Z_]+"/)) {
    made = made substr(line, RSTART, RLENGTH) ", "
    line = substr(line, RSTART + RLENGTH)
  }
  return made
}
# What a kind refers to: the other's identifier and the field that names it.
function references(line,    made, part) {
  made = ""
  while (match(line, /\([a-z_]+, "[A-Z_]+"/)) {
    part = substr(line, RSTART + 1, RLENGTH - 1)
    line = substr(line, RSTART + RLENGTH)
    made = made "{\"" ident[substr(part, 1, index(part, ",") - 1)] "\", " names(part) "}, "
  }
  return made
}
function fail(why) {
  print "explain/table.awk: " FILENAME ":" FNR ": " why >"/dev/stderr"
  failed = 1
  exit 1
}

/^opening = / { opening = rows($0) }
/^start_date = / { start = $3 }
/^ident [a-z_]+ = bytes / { ident[$2] = $5; gsub(/"/, "", ident[$2]); kinds[++count] = $2 }
/^role [a-z_]+ = / { role[$2] = $4 }
/^key_names [a-z_]+ = / { keys[$2] = names($0) }
/^refers_to [a-z_]+ = / { refers[$2] = references($0) }
/^fields [a-z_]+ =$/ { kind = $2; next }
/^[^ ]/ || /^$/ { kind = "" }
kind != "" && /^ +opening$/ { fields[kind] = opening; next }
kind != "" && !/^ +∷ \[\]\)?$/ {
  if ((row = rows($0)) == "") fail("no row of a field")
  fields[kind] = fields[kind] row
}
END {
  if (failed) exit 1
  if (count == 0 || start == "") fail("no kind, or no name of START_DATE")
  for (i = 1; i <= count; i++) {
    k = kinds[i]
    if (role[k] == "" || fields[k] == "") fail("no role or no fields: " k)
    print "static const struct field " k "_fields[] = {" fields[k] "};"
  }
  print "static const char start_date[] = " start ";"
  print "static const struct kind kinds[] = {"
  for (i = 1; i <= count; i++) {
    k = kinds[i]
    print "    {\"" ident[k] "\", ROLE_" role[k] ", COUNT(" k "_fields), " k "_fields, {" keys[k] "NULL}, {" refers[k] "{NULL, NULL}}},"
  }
  print "};"
}
