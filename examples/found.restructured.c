int grid[16];
/* Leaves two loops at once. */
int find(int wanted) {
    int x;
    int y;
    int goto_found = 0;
    x = 0;
    while (!goto_found && x < 4) {
        y = 0;
        while (!goto_found && y < 4) {
            goto_found = grid[4 * x + y] == wanted;
            if (!goto_found) {
                y++;
            }
        }
        if (!goto_found) {
            x++;
        }
    }
    if (!goto_found) {
        return -1;
    }
    goto_found = 0;
    return 4 * x + y;
}
