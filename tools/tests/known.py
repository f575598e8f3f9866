"""Hashes that other programs made, and costly ones."""

from tools.tests import crypt64, phc

# passlib's of `password`
PASSLIB = "$scrypt$ln=16,r=8,p=1$aM15713r3Xsvxbi31lqr1Q$nFNh2CVHVjNldFVKDHDlm4CbdRSCdEBsjjJxD+iCs5E"

# of `pleaseletmein`: the third key of RFC 7914, a prefix of it, libxcrypt's, and one whose salt is plain text
RFC = "$scrypt$ln=14,r=8,p=1$U29kaXVtQ2hsb3JpZGU$cCO9yzr9c0hGHAbNgf046/2o+7qQT44+qbVD9lRdofI"
SHORT = "$scrypt$ln=14,r=8,p=1$U29kaXVtQ2hsb3JpZGU$cCO9yzr9c0hGHA"
CRYPT = "$7$CU..../....Mq4YHD2syxYT.MsH1Ek0n1$JyHIxez0DOwm0r6.kAIohc8UFBOLU4xX8a1wGBpLrw7"
PLAIN = "$7$C6..../....SodiumChloride$kBGj9fHznVYFQMEn/qDCfrDevf9YDtcDdKvEqHJLV8D"

# of the empty password: by hashlib with a salt of one zero, and without a salt
EMPTY_PHC = "$scrypt$ln=4,r=1,p=1$AA$D/ts3LanbDgeRL6tq66ykPpVILti5Hnap4D6jsndXzg"
EMPTY = "$7$2/..../....$rNxJWVHNv/mCNcgE/f6/L4zO6Fos5c2uTzhyzoisI62"
EMPTY_OF_64 = "$7$2/..../....$rNxJWVHNv/mCNcgE/f6/L4zO6Fos5c2uTzhyzoisI62zEPEbhb.Gs9XOpdn16zl3cDBsvvG1qUmnp6C1s2RW4."

# of `password`, with the salt `NaCl`, by hashlib
HASHLIB = "$scrypt$ln=4,r=1,p=1$TmFDbA$rsa3SD7SbgiAK0H0AyCGoOiGvnrEj8/ZL/DO+BCXUvQ"

# parameters that take seconds to days, more memory than exists, or a byte or a little work more than the
# default limits; and parameters whose work is PBKDF2 more than cores, because N is small
COSTLY = [(13, 1, 8192), (14, 1, 16384), (20, 1, 1048576), (50, 1, 16777216), (40, 8, 1), (56, 1, 1)]
COSTLY += [(18, 9, 1), (17, 8, 5), (20, 1, 5), (10, 2056, 1), (4, 65536, 2)]
COSTLY += [(1, 1, 2000000), (0, 1, 127132), (0, 127132, 1), (3, 8, 13111), (0, 1, 2097150)]


def texts_of(log_n, r, p):
    """A text of each format with these parameters and a key of 16 bytes; its password is not the empty one."""
    return phc.text(b"saltsalt", bytes(16), log_n, r, p), crypt64.text("saltsalt", bytes(16), log_n, r, p)


def costly():
    return [text for params in COSTLY for text in texts_of(*params)]
