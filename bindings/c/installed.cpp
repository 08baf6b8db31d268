// Uses the installed header and library from C++: prints the library's version, and what a path selects.
#include <jsonpath.h>

#include <cstdio>

int main() {
    const uint8_t path[] = {'$', '.', 'a'}, document[] = {'{', '"', 'a', '"', ':', '1', '}'};
    uint8_t out[64];
    size_t length = 0;
    jsonpath_refusal refusal;
    if (jsonpath_values(path, sizeof path, document, sizeof document, out, sizeof out, &length, &refusal) != JSONPATH_DONE) {
        return 1;
    }
    const unsigned version = jsonpath_version();
    std::printf("%u.%u.%u ", version / 10000, version / 100 % 100, version % 100);
    std::fwrite(out, 1, length, stdout);
}
