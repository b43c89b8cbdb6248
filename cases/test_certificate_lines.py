"""The rules of a certificate's lines, and the causes of which one hides the next."""
import unittest

from program import Answer, Folder
from tables import before_line, rows_of, text_of, with_line

# A source of 9 edges and 10 points, and one of 12 points. The digests were taken by Python's hashlib.
OLD = "int main(void) { int c; c = getchar(); if (c == 65) { putchar(66); } else { putchar(67); } return 0; }"
NEW = (
    "int main(void) { int c; c = getchar(); if (c == 65) { putchar(66); }"
    " else { putchar(68); putchar(10); putchar(10); } return 0; }"
)
OLD_DIGEST = "f3e7b98b7d4d95f021635d364627ee64e4acd311669841db52966ba816eaeb96"
NEW_DIGEST = "961962b00d226724a62594b1eae5daafe2abc2a3f847a6b97cb1cc3dc2621547"

# A certificate of 16 lines, whose claim is open. Its edge and its points are such of either source.
TEXT = """\
dejavu certificate 1
old f3e7b98b7d4d95f021635d364627ee64e4acd311669841db52966ba816eaeb96
new 961962b00d226724a62594b1eae5daafe2abc2a3f847a6b97cb1cc3dc2621547
dangerous 1
edge 5
pairs 9
pair 0 0
pair 1 1
pair 2 2
pair 3 3
pair 4 4
pair 5 5
pair 6 6
pair 8 8
pair 9 9
end b62b8af43e951837f97657ad030982709de0ad8ea552d96be3e0d4618f2665bd
"""

# A number, the line that is refused, its rule, and what stands behind the lines of TEXT before that number.
REFUSED = """
# the first three lines
1 1 1 -
1 1 1 dejavu certificate 1
1 1 1 dejavu certificate 2|
1 1 1 dejavu certificate 01|
1 1 1 dejavu history 1|
2 2 2 -
2 2 2 old f3e7|
2 2 2 old F3e7b98b7d4d95f021635d364627ee64e4acd311669841db52966ba816eaeb96|
2 2 2 new f3e7b98b7d4d95f021635d364627ee64e4acd311669841db52966ba816eaeb96|
3 3 3 -
3 3 3 new -|
3 3 3 new  961962b00d226724a62594b1eae5daafe2abc2a3f847a6b97cb1cc3dc2621547|
# the edges
4 4 4 -
4 4 4 dangerous 10|
4 4 4 dangerous 01|
4 5 5 dangerous 9|
4 5 5 dangerous 1|edge 9|
4 6 5 dangerous 2|edge 3|edge 3|
4 6 5 dangerous 2|edge 3|edge 2|
4 7 6 dangerous 2|edge 3|edge 8|
# the pairs
4 5 6 dangerous 0|pairs 100000001|
4 6 7 dangerous 0|pairs 100000000|
4 6 7 dangerous 0|pairs 1|pair 10 0|
4 6 7 dangerous 0|pairs 1|pair 0 12|
4 7 8 dangerous 0|pairs 1|pair 0 11|
4 6 7 dangerous 0|pairs 1|pair 0|
4 6 7 dangerous 0|pairs 1|pair 0  1|
4 6 7 dangerous 0|pairs 1|pair 0 1 |
4 7 7 dangerous 0|pairs 2|pair 1 1|pair 1 1|
4 7 7 dangerous 0|pairs 2|pair 1 1|pair 1 0|
4 7 7 dangerous 0|pairs 2|pair 1 1|pair 0 2|
4 8 8 dangerous 0|pairs 2|pair 1 1|pair 2 0|
# the end
16 16 8 -
16 16 8 end -|
17 17 9 x|
17 17 9 x
"""

# The sum of TEXT, and that with another first digit.
SUM = "b62b8af43e951837f97657ad030982709de0ad8ea552d96be3e0d4618f2665bd"
OTHER_SUM = "c62b8af43e951837f97657ad030982709de0ad8ea552d96be3e0d4618f2665bd"

# A certificate, the files that it is held against, and why it is refused: a line's rule comes before the sum, the sum before the
# sources, and the old source before the new one.
CAUSES = (
    ("shorter", "old new", "line 16 rule C8"),
    ("shorter", "new old", "line 16 rule C8"),
    ("longer", "old new", "line 17 rule C9"),
    ("changed", "old new", f"sum {OTHER_SUM} {SUM}"),
    ("changed", "new old", f"sum {OTHER_SUM} {SUM}"),
    ("text", "new old", f"old {OLD_DIGEST} {NEW_DIGEST}"),
    ("text", "new new", f"old {OLD_DIGEST} {NEW_DIGEST}"),
    ("text", "old old", f"new {NEW_DIGEST} {OLD_DIGEST}"),
)


class CertificateLines(unittest.TestCase):
    maxDiff = None

    def setUp(self):
        self.folder = Folder()
        self.addCleanup(self.folder.__exit__)
        self.folder.keep("old", OLD)
        self.folder.keep("new", NEW)

    def refused(self, certificate, cause, files="old new"):
        """The certificate, a file, is refused for the cause against these files."""
        answer = self.folder.answer("check", *files.split(" "), certificate)
        self.assertEqual(answer, Answer("Certificate", f"refused: certificate {cause}\n"))

    def test_every_line_has_a_rule(self):
        for row in rows_of(REFUSED):
            with self.subTest(row=row):
                number, line, rule, text = row.split(" ", 3)
                self.folder.keep("changed", before_line(TEXT, int(number)) + text_of(text))
                self.refused("changed", f"line {line} rule C{rule}")

    def test_each_cause_has_its_certificate(self):
        self.folder.keep("text", TEXT)
        self.folder.keep("shorter", before_line(TEXT, 16))
        self.folder.keep("longer", f"{TEXT}x\n")
        self.folder.keep("changed", with_line(TEXT, 16, f"end {OTHER_SUM}\n"))
        for certificate, files, cause in CAUSES:
            with self.subTest(certificate=certificate, files=files):
                self.refused(certificate, cause, files)

    def test_the_claim_is_read(self):
        # the points that follow on 6 in both are claimed beside others
        self.folder.keep("text", TEXT)
        self.assertEqual(self.folder.answer("check", "old", "new", "text"), Answer("Open", "open pair 6 6 next\n"))
