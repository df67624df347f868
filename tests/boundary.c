/* The C boundary, through the archive: one line a group, a count at the end, status 1 on a failure. */
#include "boundary.h"

int main(void)
{
    group("header from C");
    header_from_c(check);
    group("header from C++");
    header_from_cpp(check);
    group("symmetric_eigen");
    test_symmetric_eigen();
    group("svd");
    test_svd();
    group("row of V^T");
    test_row();
    group("solve");
    test_solve();
    group("pseudo_inverse");
    test_pseudo_inverse();
    group("qr_q");
    test_qr_q();
    group("marks");
    test_marks();
    group("sizes");
    test_sizes();
    group("numbers");
    test_numbers();
    group("blocks");
    test_blocks();
    group("covariance");
    test_covariance();
    group("store");
    test_store();
    group("eigen in steps");
    test_steps();
    group("tally");
    test_tally();
    group("lanczos");
    test_lanczos();
    group("leading");
    test_leading();
    return report();
}
