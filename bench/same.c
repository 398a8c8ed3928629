// The statements of single-use Tokenize commands, run by libsqlite3 in the order that the vault runs them.
// What the vault remembers of a merchant is read once.
//
// same FILE N takes a file that the program vault_bench made, times N commands after those that it holds,
// and prints the line that the program prints.
#define _POSIX_C_SOURCE 200809L

#include "statements.h"
#include <string.h>
#include <time.h>

static const char CALLER[] = "till-1";
static const char MERCHANT[] = "shop1";

enum { MADE = 1, SINGLE = 1, TOKENIZE = 1, DIGITS = 11 };

// A token: the drawn digits, one more, and the card's last four. A card number has as many.
enum { TOKEN = DIGITS + 1 + 4 };

// What is remembered of the merchant: the life of a single-use token, its moment, how many tokens were made,
// and the rowid of that count.
struct merchant {
    int64_t single_life, moment, made, made_rowid;
};

// What the card check leaves of digits.
static int remainder_of(const char *digits)
{
    int total = 0;
    size_t length = strlen(digits);
    for (size_t place = 0; place < length; place++) {
        int value = (digits[length - 1 - place] - '0') * (1 + (int)(place % 2));
        total += value > 9 ? value - 9 : value;
    }
    return total % 10;
}

// A card number, another one for each place below 10 to the ninth; they come in no order.
static void card_for(int64_t place, char card[TOKEN + 1])
{
    snprintf(card, TOKEN + 1, "411111%09llu0", (unsigned long long)place * 618033989 % 1000000000);
    card[TOKEN - 1] = (char)('0' + (10 - remainder_of(card)) % 10);
}

// The first good candidate: the number's digits backwards, one more digit, and the card's last four.
static void token_for(int64_t number, const char *card, char token[TOKEN + 1])
{
    for (int place = 0; place < DIGITS; place++) {
        token[place] = (char)('0' + number % 10);
        number /= 10;
    }
    token[DIGITS] = '0';
    memcpy(token + DIGITS + 1, card + TOKEN - 4, 5);
    if (remainder_of(token) == 0)
        token[DIGITS] = '1';
}

// The caller has the right to make tokens, without an end.
static void need_right(void)
{
    put_text(FIND_RIGHT, 1, CALLER);
    put_text(FIND_RIGHT, 2, MERCHANT);
    put_number(FIND_RIGHT, 3, TOKENIZE);
    need(next_row(FIND_RIGHT), "no right");
    need(sqlite3_column_type(statements[FIND_RIGHT], 0) == SQLITE_NULL, "a right with an end");
    need(!next_row(FIND_RIGHT), "two rights");
}

// What is read once of the merchant, which is there and has made a token.
static struct merchant find_merchant(void)
{
    struct merchant found = {0};
    put_text(FIND_LIVES, 1, MERCHANT);
    need(next_row(FIND_LIVES), "no merchant");
    found.single_life = number_in(FIND_LIVES, 0);
    found.moment = number_in(FIND_LIVES, 2);
    need(!next_row(FIND_LIVES), "two merchants");
    put_text(FIND_COUNT, 1, MERCHANT);
    put_number(FIND_COUNT, 2, MADE);
    need(next_row(FIND_COUNT), "no token was made");
    found.made = number_in(FIND_COUNT, 0);
    found.made_rowid = number_in(FIND_COUNT, 1);
    need(!next_row(FIND_COUNT), "two counts");
    need_right();
    return found;
}

// What one Tokenize reads: there is no such record, and no such token.
static void read_all(int64_t request, const char *token)
{
    put_text(FIND_RECORD, 1, CALLER);
    put_number(FIND_RECORD, 2, request);
    run(FIND_RECORD);
    put_text(FIND_ENTRY, 1, MERCHANT);
    put_text(FIND_ENTRY, 2, token);
    run(FIND_ENTRY);
}

// One token more was made.
static void raise_made(struct merchant *merchant)
{
    merchant->made++;
    put_text(SET_COUNT, 1, MERCHANT);
    put_number(SET_COUNT, 2, MADE);
    put_number(SET_COUNT, 3, merchant->made);
    put_number(SET_COUNT, 4, merchant->made_rowid);
    run(SET_COUNT);
    need(sqlite3_changes(conn) == 1, "no count has the rowid");
}

// The id of the number's card, which is there and used once more.
static int64_t use_known(const char *number)
{
    put_text(FIND_CARD, 1, MERCHANT);
    put_text(FIND_CARD, 2, number);
    need(next_row(FIND_CARD), "no card");
    int64_t card = number_in(FIND_CARD, 0), uses = number_in(FIND_CARD, 1);
    need(!next_row(FIND_CARD), "two cards");
    put_number(SET_USES, 1, card);
    put_number(SET_USES, 2, uses + 1);
    run(SET_USES);
    return card;
}

// The id of the number's card, which is made or used once more.
static int64_t use_card(const char *number)
{
    put_text(ADD_CARD, 1, MERCHANT);
    put_text(ADD_CARD, 2, number);
    run(ADD_CARD);
    return sqlite3_changes(conn) == 1 ? sqlite3_last_insert_rowid(conn) : use_known(number);
}

// A new entry, of a card, that lives from the merchant's moment on. What is never bound is NULL: `revoked`.
static void add_entry(const char *token, int64_t card, const struct merchant *merchant)
{
    put_text(ADD_ENTRY, 1, MERCHANT);
    put_text(ADD_ENTRY, 2, token);
    put_number(ADD_ENTRY, 3, card);
    put_number(ADD_ENTRY, 4, SINGLE);
    put_number(ADD_ENTRY, 5, merchant->moment);
    put_number(ADD_ENTRY, 6, merchant->moment + merchant->single_life);
    run(ADD_ENTRY);
}

static void add_record(int64_t request, const char *token)
{
    put_text(ADD_RECORD, 1, CALLER);
    put_number(ADD_RECORD, 2, request);
    put_text(ADD_RECORD, 3, MERCHANT);
    put_text(ADD_RECORD, 4, token);
    put_number(ADD_RECORD, 5, SINGLE);
    run(ADD_RECORD);
}

// One Tokenize of a card of its own: what it reads, and what it writes in one transaction.
static void tokenize(int64_t request, struct merchant *merchant)
{
    char card[TOKEN + 1], token[TOKEN + 1];
    card_for(request, card);
    token_for(request, card, token);
    read_all(request, token);
    run(BEGIN);
    raise_made(merchant);
    add_entry(token, use_card(card), merchant);
    add_record(request, token);
    run(COMMIT);
}

// The microseconds of a clock that only goes on.
static int64_t microseconds(void)
{
    struct timespec now;
    need(clock_gettime(CLOCK_MONOTONIC, &now) == 0, "no clock");
    return (int64_t)now.tv_sec * 1000000 + now.tv_nsec / 1000;
}

// The microseconds that so many commands take, at least one.
static int64_t time_tokens(int64_t many)
{
    struct merchant merchant = find_merchant();
    int64_t first = merchant.made + 1;
    int64_t start = microseconds();
    for (int64_t number = first; number < first + many; number++)
        tokenize(number, &merchant);
    int64_t spent = microseconds() - start;
    return spent > 0 ? spent : 1;
}

int main(int words, char **word)
{
    need(words == 3, "FILE N are asked for");
    char *end;
    long many = strtol(word[2], &end, 10);
    need(*word[2] != '\0' && *end == '\0' && many >= 0 && many <= 1000000, "N is 0 to 1000000");
    open_file(word[1]);
    int64_t spent = time_tokens(many);
    close_file();
    int64_t rate = many * INT64_C(1000000) / spent;
    int said = printf("%ld commands in %lld microseconds, %lld a second\n", many, (long long)spent,
                      (long long)rate);
    return said < 0 || fflush(stdout) != 0;
}
