// Puts out the moves of the Towers of Hanoi with three discs, over start.S, and ends with how many they are.

unsigned call(unsigned a0, unsigned number); // start.S: the thread call of that number

static void put(char c) { call(c, 1); }

// Moves so many discs from one tower to another over the third, and answers in how many moves.
static unsigned move(unsigned discs, char from, char to, char over)
{
    if (discs == 0)
        return 0;
    unsigned before = move(discs - 1, from, over, to);
    put(from);
    put('>');
    put(to);
    put('\n');
    return before + 1 + move(discs - 1, over, to, from);
}

int main(void) { return (int)move(3, 'A', 'C', 'B'); }
