// The header in a program in C++.
#include "gix_mailmap.h"
#include <memory>
#include <string>

int main()
{
    const std::string text = "Jane Doe <jane@x> <jd@y>\n", old_name = "jd", old_email = "JD@y";
    gix_mailmap *opened;
    if (gix_mailmap_open(&opened, text.data(), text.size()) != GIX_MAILMAP_OK)
        return 1;
    const std::unique_ptr<gix_mailmap, decltype(&gix_mailmap_close)> map(opened, gix_mailmap_close);
    char name[16], email[16];
    gix_mailmap_field new_name, new_email;
    gix_mailmap_status status =
        gix_mailmap_lookup(map.get(), old_name.data(), old_name.size(), old_email.data(), old_email.size(), name,
                           sizeof name, &new_name, email, sizeof email, &new_email);
    return status == GIX_MAILMAP_OK && std::string(name, new_name.len) == "Jane Doe" && new_email.is_given ? 0 : 1;
}
