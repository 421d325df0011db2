// From C++: empty vectors, whose data() is NULL as a rule; the names as cases; the words. The
// status is 0, or tells the check that fails.
#include <string>
#include <vector>

#include "slatmonief.h"

static int code128()
{
    const std::vector<uint8_t> none;
    std::vector<uint8_t> row;
    const slatmonief_answer a = slatmonief_unpack(none.data(), none.size(), row.data(), row.size());
    switch (a.number) {
    case SLATMONIEF_NO_HEAD: break;
    default: return 1;
    }
    const std::vector<uint32_t> text = {0x181, 'A'};
    const slatmonief_answer b = slatmonief_encode(text.data(), text.size(), row.data(), row.size());
    if (b.number != SLATMONIEF_BUFFER_TOO_SHORT) return 2;
    if (b.second != SLATMONIEF_CELLS(text.size())) return 2;
    row.resize(b.second);
    const slatmonief_answer c = slatmonief_encode(text.data(), text.size(), row.data(), row.size());
    if (c.number != SLATMONIEF_ACCEPTED || SLATMONIEF_CELLS(c.second) != row.size()) return 3;
    return std::string(slatmonief_words(a.number)) == "the record has no head" ? 0 : 4;
}

// The same for EAN-13, whose digits are in strings.
static int ean13()
{
    const std::string number = "4006381333931";
    const uint8_t *digits = reinterpret_cast<const uint8_t *>(number.data());
    std::vector<uint8_t> row, text;
    slatmonief_answer a = slatmonief_ean13_read(row.data(), row.size(), text.data(), text.size());
    if (a.number != SLATMONIEF_NO_ROW || a.second != 0) return 5;
    a = slatmonief_ean13_write(digits, number.size(), row.data(), row.size());
    if (a.number != SLATMONIEF_BUFFER_TOO_SHORT || a.second != SLATMONIEF_EAN13_CELLS) return 6;
    row.resize(a.second);
    a = slatmonief_ean13_write(digits, number.size(), row.data(), row.size());
    if (a.number != SLATMONIEF_ACCEPTED || a.second != row.size()) return 7;
    text.resize(SLATMONIEF_EAN13_DIGITS);
    a = slatmonief_ean13_read(row.data(), row.size(), text.data(), text.size());
    return a.number == 0 && std::string(text.begin(), text.end()) == number ? 0 : 8;
}

int main()
{
    const int status = code128();
    return status != 0 ? status : ean13();
}
