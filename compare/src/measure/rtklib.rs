//! RTKLIB's parity, where its library is installed. It is looked for only when the
//! program runs, so nothing here needs it to be built.

use std::ffi::{c_char, c_int, c_uint, c_void, CStr};

const LIBRARY: &CStr = c"libRTKLib.so.1";
const FUNCTION: &CStr = c"rtk_crc24q";

/// What a function of the library calls is looked for at its first call. The
/// library calls functions that a program of RTKLIB would have to bring along, so
/// it cannot be loaded with everything looked for at once.
const RTLD_LAZY: c_int = 1;

/// As RTKLIB declares it: the bytes, and how many there are.
type Crc24q = unsafe extern "C" fn(*const u8, c_int) -> c_uint;

extern "C" {
    fn dlopen(library: *const c_char, mode: c_int) -> *mut c_void;
    fn dlsym(library: *mut c_void, name: *const c_char) -> *mut c_void;
    fn dlerror() -> *const c_char;
}

pub struct Rtklib {
    crc24q: Crc24q,
}

impl Rtklib {
    /// RTKLIB's function, or why it is not there. The library stays loaded to the
    /// end of the program, so the function can be called as long as that runs.
    pub fn load() -> Result<Rtklib, String> {
        // The name ends with a zero byte.
        let library = unsafe { dlopen(LIBRARY.as_ptr(), RTLD_LAZY) };
        if library.is_null() {
            return Err(reason());
        }
        // So does this one, and the library is there.
        let function = unsafe { dlsym(library, FUNCTION.as_ptr()) };
        // What has this name in RTKLIB is a function of this type.
        let crc24q = unsafe { std::mem::transmute::<*mut c_void, Option<Crc24q>>(function) };
        crc24q.map(|crc24q| Rtklib { crc24q }).ok_or_else(reason)
    }

    /// The CRC-24Q of whole bytes.
    pub fn parity(&self, bytes: &[u8]) -> u32 {
        let length = c_int::try_from(bytes.len()).expect("so many bytes are not handed over");
        // The pointer and the length are those of one slice, which is only read.
        unsafe { (self.crc24q)(bytes.as_ptr(), length) }
    }
}

/// What the last call that failed has left to say.
fn reason() -> String {
    let text = unsafe { dlerror() };
    if text.is_null() {
        return "no reason is given".into();
    }
    // It ends with a zero byte and stays until the next such call.
    unsafe { CStr::from_ptr(text) }.to_string_lossy().into_owned()
}
