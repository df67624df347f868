//! LAPACK and its BLAS, where the machine has them: Debian's liblapack3, the reference or OpenBLAS's.

#[link(name = "dl")]
unsafe extern "C" {
    fn dlopen(name: *const u8, flags: i32) -> *mut u8;
    fn dlsym(library: *mut u8, name: *const u8) -> *mut u8;
}

fn opened(names: [&std::ffi::CStr; 2]) -> Option<*mut u8> {
    names.iter().map(|name| unsafe { dlopen(name.as_ptr().cast(), 2) }).find(|library| !library.is_null())
}

fn found(library: *mut u8, name: &std::ffi::CStr) -> Option<*mut u8> {
    Some(unsafe { dlsym(library, name.as_ptr().cast()) }).filter(|function| !function.is_null())
}

type Dsyev = unsafe extern "C" fn(
    *const u8, *const u8, *const i32, *mut f64, *const i32, *mut f64, *mut f64, *const i32, *mut i32, usize, usize,
);
type Dgesvd = unsafe extern "C" fn(
    *const u8, *const u8, *const i32, *const i32, *mut f64, *const i32, *mut f64, *mut f64, *const i32, *mut f64,
    *const i32, *mut f64, *const i32, *mut i32, usize, usize,
);
type Dsyevd = unsafe extern "C" fn(
    *const u8, *const u8, *const i32, *mut f64, *const i32, *mut f64, *mut f64, *const i32, *mut i32, *const i32, *mut i32, usize, usize,
);
type Dgesvj = unsafe extern "C" fn(
    *const u8, *const u8, *const u8, *const i32, *const i32, *mut f64, *const i32, *mut f64, *const i32, *mut f64, *const i32,
    *mut f64, *const i32, *mut i32, usize, usize, usize,
);

type Ilaver = unsafe extern "C" fn(*mut i32, *mut i32, *mut i32);
pub type Dsyrk = unsafe extern "C" fn(
    *const u8, *const u8, *const i32, *const i32, *const f64, *const f64, *const i32, *const f64, *mut f64, *const i32, usize, usize,
);

pub struct Lapack {
    dsyev: Dsyev,
    dsyevd: Dsyevd,
    dgesvd: Dgesvd,
    dgesvj: Dgesvj,
    version: Ilaver,
    openblas: bool,
}

pub fn lapack() -> Option<Lapack> {
    let library = opened([c"liblapack.so.3", c"liblapack.so"])?;
    unsafe {
        Some(Lapack {
            dsyev: std::mem::transmute::<*mut u8, Dsyev>(found(library, c"dsyev_")?),
            dsyevd: std::mem::transmute::<*mut u8, Dsyevd>(found(library, c"dsyevd_")?),
            dgesvd: std::mem::transmute::<*mut u8, Dgesvd>(found(library, c"dgesvd_")?),
            dgesvj: std::mem::transmute::<*mut u8, Dgesvj>(found(library, c"dgesvj_")?),
            version: std::mem::transmute::<*mut u8, Ilaver>(found(library, c"ilaver_")?),
            openblas: found(library, c"openblas_get_config").is_some(),
        })
    }
}

pub fn dsyrk() -> Option<Dsyrk> {
    let library = opened([c"libblas.so.3", c"libblas.so"])?;
    Some(unsafe { std::mem::transmute::<*mut u8, Dsyrk>(found(library, c"dsyrk_")?) })
}

/// What is measured in LAPACK's columns.
pub fn about(lapack: &Option<Lapack>) -> String {
    let Some(l) = lapack else { return "There is no LAPACK here: its columns are empty.".into() };
    let (mut major, mut minor, mut patch) = (0, 0, 0);
    unsafe { (l.version)(&mut major, &mut minor, &mut patch) };
    format!("LAPACK {major}.{minor}.{patch}, {}.", if l.openblas { "with OpenBLAS in one thread" } else { "the reference build" })
}

impl Lapack {
    pub fn eigen(&self, n: usize, matrix: &[f64], a: &mut [f64], w: &mut [f64], work: &mut [f64]) {
        a.copy_from_slice(matrix);
        let (n, lwork, mut info) = (n as i32, work.len() as i32, 0);
        unsafe {
            (self.dsyev)(
                b"V".as_ptr(), b"L".as_ptr(), &n, a.as_mut_ptr(), &n, w.as_mut_ptr(), work.as_mut_ptr(), &lwork, &mut info, 1, 1,
            )
        };
        assert_eq!(info, 0);
    }
    pub fn divide(&self, n: usize, matrix: &[f64], a: &mut [f64], w: &mut [f64], work: &mut [f64], whole: &mut [i32]) {
        a.copy_from_slice(matrix);
        let (n, lwork, liwork, mut info) = (n as i32, work.len() as i32, whole.len() as i32, 0);
        unsafe {
            (self.dsyevd)(
                b"V".as_ptr(), b"L".as_ptr(), &n, a.as_mut_ptr(), &n, w.as_mut_ptr(), work.as_mut_ptr(), &lwork, whole.as_mut_ptr(),
                &liwork, &mut info, 1, 1,
            )
        };
        assert_eq!(info, 0);
    }
    pub fn jacobi(&self, n: usize, matrix: &[f64], a: &mut [f64], s: &mut [f64], v: &mut [f64], work: &mut [f64]) {
        a.copy_from_slice(matrix);
        let (n, lwork, mut info) = (n as i32, work.len() as i32, 0);
        unsafe {
            (self.dgesvj)(
                b"G".as_ptr(), b"U".as_ptr(), b"V".as_ptr(), &n, &n, a.as_mut_ptr(), &n, s.as_mut_ptr(), &n, v.as_mut_ptr(), &n,
                work.as_mut_ptr(), &lwork, &mut info, 1, 1, 1,
            )
        };
        assert_eq!(info, 0);
    }
    pub fn svd(&self, n: usize, matrix: &[f64], a: &mut [f64], s: &mut [f64], u: &mut [f64], vt: &mut [f64], work: &mut [f64]) {
        a.copy_from_slice(matrix);
        let (n, lwork, mut info) = (n as i32, work.len() as i32, 0);
        unsafe {
            (self.dgesvd)(
                b"S".as_ptr(), b"S".as_ptr(), &n, &n, a.as_mut_ptr(), &n, s.as_mut_ptr(), u.as_mut_ptr(), &n, vt.as_mut_ptr(), &n,
                work.as_mut_ptr(), &lwork, &mut info, 1, 1,
            )
        };
        assert_eq!(info, 0);
    }
}
