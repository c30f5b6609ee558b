# Prints, as SQL, the rows of a desk with so many holders and authorizations of each (-v holders=N -v auths=N).
#
# A holder has 8192 addresses of 240.0.0.0/4, which is room for 32,768 holders, and a /48 of 2001:db8::/32, and `ann` as
# its manager. Its first ten authorizations are in its first /24, where no other one of IPv4 is. After 496 more, their
# prefixes begin anew, each with another AS. Each fifth authorization is of IPv6, and three of four are in force on
# 2026-03-01, which is day 20513.

function blob_v4(address) { return sprintf("x'%032x'", address) }
function blob_v6(holder, subnet, rest) { return sprintf("x'20010db8%04x%04x%s'", holder + 1, subnet, rest) }

BEGIN {
    first_v4 = 240 * 2 ^ 24
    zeros = "0000000000000000"
    ones = "ffffffffffffffff"
    print "BEGIN;"
    print "INSERT INTO meta VALUES ('schema', 2);"
    print "INSERT INTO operator VALUES ('reg');"
    printf "INSERT INTO pool VALUES (4, %s, 4);\n", blob_v4(first_v4)
    printf "INSERT INTO pool VALUES (6, %s, 32);\n", blob_v6(-1, 0, zeros)
    for (holder = 0; holder < holders; holder++)
        print_holder(holder, "'h" holder "'", first_v4 + holder * 8192)
    print "COMMIT;"
}

function print_holder(holder, name, first,   number) {
    printf "INSERT INTO holder VALUES (%s, 1, %d);\n", name, auths
    printf "INSERT INTO holding VALUES (4, %s, %s, %s);\n", blob_v4(first), blob_v4(first + 8191), name
    printf "INSERT INTO holding VALUES (6, %s, %s, %s);\n",
        blob_v6(holder, 0, zeros), blob_v6(holder, 65535, ones), name
    printf "INSERT INTO granted VALUES (%s, 1, 'ann', 1, NULL, NULL, NULL, 30000);\n", name
    for (number = 1; number <= auths; number++)
        print_authorization(name, number, 64496 + number, prefix_and_max(holder, number, first))
}

function print_authorization(name, number, asn, prefix) {
    printf "INSERT INTO claim VALUES (%s, %d, %d, %d, 30000);\n", name, number, asn, 20214 + number % 4 * 100
    printf "INSERT INTO entry VALUES (%s, %d, %d, %s);\n", name, number, asn, prefix
}

# Which of the 512 subnets of a holder the authorization is for.
function subnet_of(number) { return number <= 10 ? number : 16 + number % 496 }

function prefix_and_max(holder, number, first) {
    if (number % 5)
        return "4, " blob_v4(first + subnet_of(number) * 16) ", 28, 28"
    return "6, " blob_v6(holder, number, zeros) ", 64, 64"
}
