#include <iostream>
#include <torkettle.hpp>

int main()
{
    std::cout << torkettle::parse<int>("-2345").value_or(0) << '\n';
}
