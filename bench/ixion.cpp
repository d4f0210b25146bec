/* Reads formulas of standard input, one a line, by libixion's parser, and binds each to a model of four sheets. It prints
   how many were read. */
#include <iostream>
#include <ixion/address.hpp>
#include <ixion/formula.hpp>
#include <ixion/formula_name_resolver.hpp>
#include <ixion/model_context.hpp>
#include <string>

int main() {
    ixion::model_context book({1048576, 16384});
    for (const char *name : {"Sheet1", "Data", "Budget", "Next", "My data"}) book.append_sheet(name);
    auto names = ixion::formula_name_resolver::get(ixion::formula_name_resolver_t::excel_a1, &book);
    std::string text;
    long count = 0, row = 0;
    while (std::getline(std::cin, text)) {
        ixion::abs_address_t place(0, static_cast<ixion::row_t>(row % 1048576), 0);
        try {
            auto tokens = ixion::parse_formula_string(book, place, *names, text);
            book.set_formula_cell(place, std::move(tokens));
            count++;
        } catch (const std::exception &) {
        }
        row++;
    }
    std::cout << count << '\n';
    return 0;
}
