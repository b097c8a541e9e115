/* A switch whose default stands in an if, beside a case in its else. */
int grade(int points) {
    int bonus = 0;
    switch (points / 10) {
    case 10:
        bonus = 1;
    case 9:
        return 5 + bonus;
    case 8:
        return 4;
        if (points < 0) {
    default:
            putchar('?');
        } else {
    case 7:
            putchar('!');
        }
    }
    return points < 50 ? 1 : 3;
}
