# What bench/run.sh and bench/instructions.sh measure on: each function writes an input of as many parts as its argument
# says. It needs yes and head.

# Lines of 76 octets with their CR LF.
line=$(printf '%074d' 0)
mail_lines() {
    yes "$line"$'\r' | head -n "$1" || true
}

transaction() {
    printf 'MAIL FROM:<a@example.org>\r\nRCPT TO:<b@example.org>\r\nDATA\r\n'
}

# One message of so many lines.
message_of() {
    printf 'HELO x\r\n'
    transaction
    mail_lines "$1"
    printf '.\r\nQUIT\r\n'
}

# Messages of 13,797 lines, 1,048,572 octets: the most lines that are kept.
large_messages() {
    printf 'HELO x\r\n'
    for ((message = 0; message < $1; message++)); do
        transaction
        mail_lines 13797
        printf '.\r\n'
    done
    printf 'QUIT\r\n'
}

# So many chunks of 65,536 octets each.
chunks() {
    local text
    # The letter keeps the line ends at the chunk's end.
    text=$(mail_lines 863 | head -c 65536; printf x)
    for ((chunk = 0; chunk < $1; chunk++)); do
        printf 'BDAT 65536\r\n%s' "${text%x}"
    done
}

# Messages of 16 chunks and an empty one, 1,048,576 octets each: the most that are kept.
chunked_messages() {
    printf 'EHLO x\r\n'
    for ((message = 0; message < $1; message++)); do
        printf 'MAIL FROM:<a@example.org>\r\nRCPT TO:<b@example.org>\r\n'
        chunks 16
        printf 'BDAT 0 LAST\r\n'
    done
    printf 'QUIT\r\n'
}

# One message of so many chunks.
chunked_message_of() {
    printf 'EHLO x\r\nMAIL FROM:<a@example.org>\r\nRCPT TO:<b@example.org>\r\n'
    chunks "$1"
    printf 'QUIT\r\n'
}

small_messages() {
    printf 'HELO x\r\n'
    yes "$(transaction; printf 'hello\r\n.\r')" | head -n $(($1 * 5)) || true
    printf 'QUIT\r\n'
}

noops() {
    yes $'NOOP\r' | head -n "$1" || true
    printf 'QUIT\r\n'
}

# A transaction of 100 recipients, each RCPT with all its parameters.
full_transaction() {
    printf 'MAIL FROM:<a@example.org> RET=HDRS ENVID=q+2B1\r\n'
    for ((recipient = 0; recipient < 100; recipient++)); do
        printf 'RCPT TO:<somebody@example.org> NOTIFY=SUCCESS,FAILURE,DELAY ORCPT=rfc822;some+2Bbody@example.org\r\n'
    done
    printf 'RSET\r'
}

full_transactions() {
    printf 'EHLO x\r\n'
    yes "$(full_transaction)" | head -n $(($1 * 102)) || true
    printf 'QUIT\r\n'
}

# Lines of boundaries of report 2, with the numbers up to this one.
boundary_lines() {
    seq -f "--=_relay_2_%.0f"$'\r' 0 "$1"
}

# A content of lines of 76 octets, of which every fourth begins with a period.
content_with_periods() {
    yes "$(printf '%074d\r\n%074d\r\n%074d\r\n.%073d\r' 0 0 0 0)" | head -n $((4 * $1)) || true
}

# The record of a message with a text of so many octets, 34 octets longer than the text.
record_of() {
    local length
    length=$(printf '\\x%02x' $(($1 >> 24)) $(($1 >> 16 & 255)) $(($1 >> 8 & 255)) $(($1 & 255)))
    printf '\x01\0\0\0\0\0\0\0\0\0\x05<a@b>\0\0\0\x01\0\x05<c@d>\0\0\0%b' "$length"
    head -c "$1" /dev/zero | tr '\0' x
}

octets_of() {
    head -c "$1" /dev/zero
}

# The commands and the content of a message of so many octets, in lines of 64, of which the first is the header section.
transaction_of() {
    printf 'MAIL FROM:<sender@example.org>\r\nRCPT TO:<somebody@example.org>\r\nDATA\r\n'
    printf 'Subject: what a session hands in, of 64 octets a line, all x\r\n\r\n'
    yes "$(printf '%062d' 0)"$'\r' | head -n $(($1 / 64 - 1)) || true
    printf '.\r\n'
}
