int grid[64];
/* Leaves three loops at once. */
int find(int wanted) {
    int x;
    int y;
    int z;
    int goto_found = 0;
    x = 0;
    while (!goto_found && x < 4) {
        y = 0;
        while (!goto_found && y < 4) {
            z = 0;
            while (!goto_found && z < 4) {
                goto_found = grid[16 * x + 4 * y + z] == wanted;
                if (!goto_found) {
                    z++;
                }
            }
            if (!goto_found) {
                y++;
            }
        }
        if (!goto_found) {
            x++;
        }
    }
    if (!goto_found) {
        return -1;
    }
    goto_found = 0;
    return 16 * x + 4 * y + z;
}
