# Writes data sets of people from Debian's R packages into a folder, as R users write them. bench/datasets.sh calls this.
#
#   Rscript write.R FOLDER
folder <- commandArgs(TRUE)[1]
to <- function(name) file.path(folder, name)
from <- function(package, name) {
  found <- new.env()
  data(list = name, package = package, envir = found)
  as.data.frame(get(name, found))
}
plain <- function(table, file, ...) write.csv(table, to(file), row.names = FALSE, ...)

# Row names, and dots in titles.
write.csv(from("carData", "Salaries"), to("salaries.csv"))
# Semicolons and decimal commas.
write.csv2(from("AER", "CPS1985"), to("cps1985.csv"))
write.csv2(from("AER", "PSID1982"), to("psid.csv"), row.names = FALSE)
# Cells that are NA, or empty.
write.csv(from("MASS", "survey"), to("survey.csv"))
plain(from("carData", "SLID"), "slid.csv")
plain(from("carData", "Chile"), "chile.csv", na = "")
# Tabs, and what write.table writes by default: blanks, and a header that is one title short.
write.table(from("survival", "pbc"), to("pbc.tsv"), sep = "\t", row.names = FALSE)
write.table(from("MASS", "birthwt"), to("birthwt.txt"))
plain(from("AER", "Affairs"), "affairs.csv")
plain(from("AER", "CreditCard"), "creditcard.csv")
plain(from("AER", "NMES1988"), "nmes.csv")
plain(from("AER", "TeachingRatings"), "teaching.csv")
plain(from("survey", "nhanes"), "nhanes.csv")
plain(from("survival", "flchain"), "flchain.csv")
# 62 columns.
plain(from("caret", "GermanCredit"), "germancredit.csv")

# Numbers that R worked out, with 11 to 16 decimals. A secret number is never rounded on the way, so they are rounded here.
hmda <- from("AER", "HMDA")
hmda[c("pirat", "hirat", "lvrat")] <- round(hmda[c("pirat", "hirat", "lvrat")], 4)
plain(hmda, "hmda.csv")
gsoep <- from("AER", "GSOEP9402")
gsoep$income <- round(gsoep$income, 2)
plain(gsoep, "gsoep.csv", fileEncoding = "latin1")

# Dollars with thousands marks, as in a magazine.
parade <- from("AER", "Parade2005")
parade$earnings <- paste0("$", format(parade$earnings, big.mark = ",", trim = TRUE, scientific = FALSE))
write.csv(parade, to("parade.csv"))

# Accents in Latin-1.
starwars <- from("dplyr", "starwars")[c("name", "height", "mass", "sex", "homeworld", "species")]
plain(starwars, "starwars.csv", fileEncoding = "latin1")

# The same people as staff, with salaries and days of entry by chance, as a German Excel saves them: a mark and sep= before the header, CRLF,
# 1.234,50 and 31.12.2001.
set.seed(1)
staff <- starwars[c("name", "sex", "homeworld", "species")]
pay <- round(rlnorm(nrow(staff), 8, 0.6), 2)
staff$Gehalt <- paste(format(pay, big.mark = ".", decimal.mark = ",", nsmall = 2, trim = TRUE), "\u20ac")
staff$Eintritt <- format(as.Date("2001-01-01") + sample(7000, nrow(staff)), "%d.%m.%Y")
excel <- file(to("staff.csv"), "w", encoding = "UTF-8")
writeLines("\ufeffsep=;", excel, sep = "\r\n")
write.table(staff, excel, sep = ";", row.names = FALSE, na = "", eol = "\r\n", dec = ",")
close(excel)
