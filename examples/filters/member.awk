# The lines of one member.
BEGIN { member = "member333" }
substr($1, 1, index($1, "-") - 1) == member
