// Loads an XDF file by libxdf, to measure against.

#include <xdf.h>

int main(int count, char **words)
{
    Xdf file;
    return count == 2 ? file.load_xdf(words[1]) : 2;
}
