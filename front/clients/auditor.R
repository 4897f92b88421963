# Asks a front door from R. Needs jsonlite and curl (Debian: r-cran-jsonlite, r-cran-curl).
#
#   source("auditor.R")
#   auditor_sum("http://127.0.0.1:8087", "salary", "age >= 41")
#   auditor_totals("unix:/run/auditor/door.sock", "salary", by = "team")
#   auditor_totals("http://127.0.0.1:8087", "salary", by = c("team", "site"))  a table with all totals over it
#   auditor_columns("http://127.0.0.1:8087")                                   what there is to ask about
#   auditor_would("http://127.0.0.1:8087", "sum", "salary", "age = 41")        whether it would be answered; nothing is asked
#   auditor_why("http://127.0.0.1:8087", "sum", "salary", "age = 41")          why it is denied
#   auditor_near("http://127.0.0.1:8087", "sum", "salary", "age = 41")         what is near and would be answered
#
# With several tables behind a door the table's name ends the address, "http://127.0.0.1:8087/north"; not that of a socket.
#   auditor_login(token = readline("token: "))                                 or name = and password =, for a proxy's login
# Where the system doesn't know the office's own certificates, CURL_CA_BUNDLE names their file, as for curl in a terminal.
#
# A denial is NA with its reason in attr(x, "denied"). Numbers are in the unit of the column, by notes.json, which stands in attr(x, "unit"); with
# steps = TRUE they are as the table has them, whole numbers of the smallest steps, and then totals are exact: they stay below 2^53.
# What comes back is what the door said. The door isn't proved; `auditor simulate` checks its transcript.

auditor_who <- new.env()

# Says who asks from here on: by a token of the door, or by a name and a password of the proxy before it. Nothing of it stands in an address.
auditor_login <- function(name = NULL, password = NULL, token = NULL) {
  auditor_who$header <- if (!is.null(token)) paste("Bearer", token)
    else if (!is.null(name)) paste("Basic", jsonlite::base64_enc(charToRaw(enc2utf8(paste0(name, ":", password)))))
  invisible(NULL)
}

# Sends a request: the status and the text of the reply. `socket` is the door's socket if the address is unix:PATH.
auditor_send <- function(url, path, body = NULL) {
  socket <- if (startsWith(url, "unix:")) substring(url, 6)
  base <- if (is.null(socket)) sub("/+$", "", url) else "http://localhost"
  handle <- curl::new_handle(timeout = 90)
  if (grepl("@", sub("/.*", "", sub("^[a-z]+://", "", url)), fixed = TRUE)) stop("a login goes into auditor_login, not into the address", call. = FALSE)
  if (!is.null(socket)) curl::handle_setopt(handle, unix_socket_path = socket)
  if (nzchar(Sys.getenv("CURL_CA_BUNDLE"))) curl::handle_setopt(handle, cainfo = Sys.getenv("CURL_CA_BUNDLE"))
  headers <- c(if (!is.null(auditor_who$header)) list(Authorization = gsub("\n", "", auditor_who$header)),
               if (!is.null(body)) list("Content-Type" = "application/json"))
  if (!is.null(body)) curl::handle_setopt(handle, post = TRUE, copypostfields = enc2utf8(body))
  if (length(headers)) do.call(curl::handle_setheaders, c(list(handle), headers))
  response <- curl::curl_fetch_memory(paste0(base, "/", path), handle = handle)
  text <- rawToChar(response$content)
  Encoding(text) <- "UTF-8"
  list(status = response$status_code, text = text)
}

# The sentence for a refusal, by the door's words.json; without it the reason as the program writes it.
auditor_sentence <- function(url, reason) {
  reply <- auditor_send(url, "words.json")
  sentence <- if (reply$status == 200) jsonlite::parse_json(reply$text, simplifyVector = TRUE)$refused[[reason]]
  if (is.null(sentence)) reason else sentence
}

# The line of a question.
auditor_question <- function(ask, column, where) {
  question <- c(list(ask = ask), if (!is.null(column)) list(column = column), list(where = where))
  as.character(jsonlite::toJSON(question, auto_unbox = TRUE))
}

# What a reply of the door says, as a list, which is empty if it isn't JSON; a fault of the door is an error.
auditor_reply <- function(response, ...) {
  reply <- tryCatch(as.list(jsonlite::parse_json(response$text, simplifyVector = TRUE, ...)), error = function(fault) list())
  if (response$status != 200) {
    stop(if (is.character(reply$error)) reply$error else paste("the door, or a proxy before it, says", response$status), call. = FALSE)
  }
  reply
}

# A question. A busy door is asked again, four times in all; a refusal and a fault of the door are errors.
auditor_ask <- function(url, ask, column = NULL, where = "all") {
  body <- auditor_question(ask, column, where)
  for (attempt in 1:4) {
    response <- auditor_send(url, "ask", body)
    if (response$status != 503) break
    if (attempt < 4) Sys.sleep(0.4 * attempt)
  }
  reply <- auditor_reply(response)
  if (!is.null(reply$refused)) {
    stop("refused: ", auditor_sentence(url, reply$refused), if (!is.null(reply$at)) paste0(" (byte ", reply$at, ")"), call. = FALSE)
  }
  if (!is.null(reply$denied)) return(structure(NA_real_, denied = reply$denied))
  if (!is.null(reply$num)) return(reply$num / reply$den)
  known <- intersect(c("count", "sum", "max", "min"), names(reply))
  if (length(known) != 1) stop("what came isn't the reply of a door", call. = FALSE)
  as.numeric(reply[[known]])
}

# What notes.json says of the columns, by name; NULL if there is none.
auditor_notes <- function(url) {
  reply <- auditor_send(url, "notes.json")
  if (reply$status == 200) tryCatch(jsonlite::parse_json(reply$text, simplifyVector = TRUE)$columns, error = function(fault) NULL)
}

# What they say of one: decimals, which its whole numbers have, and unit.
auditor_note <- function(url, column, all = auditor_notes(url)) {
  notes <- tryCatch(all[[column]], error = function(fault) NULL)
  decimals <- if (is.numeric(notes$decimals) && notes$decimals %in% 0:12) notes$decimals else 0
  list(decimals = decimals, unit = if (is.character(notes$unit)) notes$unit)
}

# An answer in the column's unit.
auditor_in_units <- function(answer, note) structure(answer / 10^note$decimals, unit = note$unit)

auditor_number <- function(url, ask, column, where, steps) {
  answer <- auditor_ask(url, ask, column, where)
  if (steps) answer else auditor_in_units(answer, auditor_note(url, column))
}

auditor_count <- function(url, where = "all") auditor_ask(url, "count", where = where)
auditor_sum <- function(url, column, where = "all", steps = FALSE) auditor_number(url, "sum", column, where, steps)
auditor_mean <- function(url, column, where = "all", steps = FALSE) auditor_number(url, "avg", column, where, steps)
auditor_max <- function(url, column, where = "all", steps = FALSE) auditor_number(url, "max", column, where, steps)
auditor_min <- function(url, column, where = "all", steps = FALSE) auditor_number(url, "min", column, where, steps)

# What would be said of a question now, a word: released, unsafe, wide, refused or count. attr(x, "new") is FALSE if the answer would add nothing
# new, since it follows from earlier ones, and TRUE of another answer. Nothing is asked.
auditor_would <- function(url, ask, column = NULL, where = "all") {
  response <- auditor_send(url, "would", auditor_question(ask, column, where))
  reply <- auditor_reply(response)
  if (!is.character(reply$verdict)) stop("what came isn't the reply of a door", call. = FALSE)
  if (reply$verdict == "released") structure(reply$verdict, new = !identical(reply$new, FALSE)) else reply$verdict
}

# What auditor explain says of a question, as a list: verdict, and of a denial as unsafe a certificate, or proof = "wide". Nothing is asked.
# Numbers of more than 15 digits come as text. The line itself is attr(x, "line"), for demo/check_certificate.py.
auditor_why <- function(url, ask, column = NULL, where = "all") {
  response <- auditor_send(url, "why", auditor_question(ask, column, where))
  reply <- auditor_reply(response, bigint_as_char = TRUE)
  if (is.null(reply$verdict)) stop("what came isn't the reply of a door", call. = FALSE)
  structure(reply, line = sub("\n$", "", response$text))
}

# What is near a denied question and would be answered now: its condition, its rows, and how many of them are more and fewer. NULL if there is
# nothing, or if the question isn't denied. Nothing is asked.
auditor_near <- function(url, ask, column, where = "all") {
  response <- auditor_send(url, "near", auditor_question(ask, column, where))
  reply <- auditor_reply(response)
  if (is.null(reply$verdict)) stop("what came isn't the reply of a door", call. = FALSE)
  if (is.null(reply$near)) return(NULL)
  list(where = reply$near$where, rows = reply$rows, more = reply$more, fewer = reply$fewer)
}

# The columns as a data frame: name, what each is, its unit and the decimals that its whole numbers have. attr(x, "only") is a sentence on the rows
# that every question is over, if these aren't all.
auditor_columns <- function(url) {
  reply <- auditor_send(url, "schema.json")
  if (reply$status != 200) stop("the door gives no table", call. = FALSE)
  schema <- jsonlite::parse_json(reply$text, simplifyVector = TRUE)
  all <- auditor_notes(url)
  notes <- lapply(schema$columns$name, function(name) auditor_note(url, name, all))
  frame <- data.frame(schema$columns[c("name", "is")], unit = vapply(notes, function(note) c(note$unit, "")[1], ""),
                      decimals = vapply(notes, function(note) as.numeric(note$decimals), 0))
  structure(frame, only = if (is.character(schema$only)) paste("every question is over the rows where", schema$only),
            class = c("auditor_columns", "data.frame"))
}

print.auditor_columns <- function(x, ...) {
  NextMethod()
  if (!is.null(attr(x, "only"))) cat(attr(x, "only"), "\n", sep = "")
  invisible(x)
}

# The public columns as a data frame: texts as they are, also "NA", and numbers as doubles.
auditor_public <- function(url) {
  schema <- auditor_send(url, "schema.json")
  table <- auditor_send(url, "table.csv")
  if (schema$status != 200 || table$status != 200) stop("the door gives no table", call. = FALSE)
  columns <- jsonlite::parse_json(schema$text, simplifyVector = TRUE)$columns
  kinds <- columns$is[columns$is %in% c("text", "number", "count")]
  utils::read.csv(text = sub("^\ufeff", "", table$text), colClasses = ifelse(kinds == "text", "character", "numeric"),
                  na.strings = character(), check.names = FALSE, encoding = "UTF-8")
}

# A value as it stands in a condition.
auditor_literal <- function(values) {
  if (is.numeric(values)) sprintf("%.0f", values) else paste0("'", gsub("'", "''", values, fixed = TRUE), "'")
}

# The cells by some columns, NA for all values of one: the totals over them first if there are two.
auditor_cells <- function(public, by) {
  kept <- if (length(by) > 1) expand.grid(rep(list(c(FALSE, TRUE)), length(by))) else data.frame(TRUE)
  cells <- lapply(seq_len(nrow(kept)), function(line) {
    names <- by[unlist(kept[line, ])]
    some <- if (length(names)) unique(public[names]) else public[1, 0, drop = FALSE]
    if (length(names)) some <- some[do.call(order, c(unname(as.list(some)), list(method = "radix"))), , drop = FALSE]
    for (name in setdiff(by, names)) some[[name]] <- rep(public[[name]][NA_integer_], nrow(some))
    some[by]
  })
  do.call(rbind, cells)
}

# The condition of each cell, its columns in the table's order.
auditor_parts <- function(cells, order, where) {
  vapply(seq_len(nrow(cells)), function(line) {
    names <- order[vapply(order, function(name) !is.na(cells[[name]][line]), TRUE)]
    part <- paste(vapply(names, function(name) paste(name, "=", auditor_literal(cells[[name]][line])), ""), collapse = " and ")
    if (part == "") where else if (where == "all") part else paste0("(", where, ") and ", part)
  }, "")
}

# The totals of the groups of a public column: a data frame of the value, rows, sum (NA if denied) and denied (its reason or ""). By two
# columns it has both, and NA for all values of one. The group with the most rows is asked first.
auditor_totals <- function(url, column, by, where = "all", steps = FALSE) {
  public <- auditor_public(url)
  if (!all(by %in% names(public)) || anyDuplicated(by)) stop(paste(by, collapse = ", "), ": there is no such public column", call. = FALSE)
  cells <- auditor_cells(public, by)
  parts <- auditor_parts(cells, intersect(names(public), by), where)
  rows <- vapply(parts, function(part) auditor_count(url, part), 0, USE.NAMES = FALSE)
  sums <- vector("list", length(parts))
  note <- if (steps) list(decimals = 0) else auditor_note(url, column)
  for (place in order(-rows)) if (rows[place] > 0) sums[[place]] <- auditor_in_units(auditor_ask(url, "sum", column, parts[place]), note)
  sums <- sums[rows > 0]
  reason <- function(sum) if (is.null(attr(sum, "denied"))) "" else attr(sum, "denied")
  frame <- data.frame(cells[rows > 0, , drop = FALSE], rows = rows[rows > 0], sum = vapply(sums, as.numeric, 0), denied = vapply(sums, reason, ""),
                      row.names = NULL, check.names = FALSE)
  if (!is.null(note$unit)) attr(frame$sum, "unit") <- note$unit
  frame
}
