# Writes the sets of modules of front_tests (crates/front_tests/src/line_cases.rt; sets.rt says what its headings mean) as
# files: of each request that the program can make a folder with its modules, its length and the line that is answered.
# The program asks for an invariant Inv, so one of another name takes its place, blanks behind it.

function numbered(body, n,    t) { t = body; gsub(/%/, n, t); gsub(/@/, n + 1, t); return t }

function blanks(n,    t) { t = " "; while (length(t) < n) t = t t; return substr(t, 1, n) }

# What a heading says, with its body.
function close_part(    span, n) {
  split(rest, span, " ")
  if (word == "file") { name = rest; text[name] = body }
  else if (word == "more") text[name] = text[name] body
  else if (word == "times") for (n = span[1]; n <= span[2]; n++) text[name] = text[name] numbered(body, n)
  else if (word == "each") for (n = span[1]; n <= span[2]; n++) text["M" n] = numbered(body, n)
  else if (word == "padded") text[name] = text[name] blanks(rest - length(text[name]))
  else if (word == "fails") told_by_program = 0
  else if (word == "ask" && told_by_program) ask()
  word = ""; body = ""
}

function ask(    length_asked, invariant, folder, m, t) {
  length_asked = 1; invariant = "Inv"
  if (rest ~ /^length=[0-9]+$/) length_asked = substr(rest, 8)
  else if (rest ~ /^inv=[A-Za-z]+$/) invariant = substr(rest, 5)
  else if (rest != "") return
  folder = out "/" ++asked
  system("mkdir -p " folder)
  for (m in text) {
    t = text[m]
    if (invariant != "Inv" && m == "Row") {
      sub(/\nInv ==/, "\nXnv ==", t)
      sub("\n" invariant " ==", "\n" "Inv" blanks(length(invariant) - 3) " ==", t)
      sub("no operator " invariant, "no operator Inv", body)
    }
    printf "%s", t > (folder "/" m ".tla"); close(folder "/" m ".tla")
  }
  printf "%s", body > (folder "/line"); close(folder "/line")
  print length_asked > (folder "/length"); close(folder "/length")
}

/r##"$/ { inside = 1; next }
!inside { next }
{ is_last = sub(/"##;$/, "") }
/^>/ {
  close_part()
  word = substr($1, 2); rest = $0; sub(/^[^ ]* ?/, "", rest)
  if (word == "set") { split("", text); told_by_program = 1 }
  next
}
{ body = body $0 "\n" }
is_last { close_part(); inside = 0 }
END { print asked }
