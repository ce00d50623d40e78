//! The classic Macintosh's Resource Manager over a zone and resource forks in memory. resman(3) says what each call does.
use crate::sys::{MR_NO_FILES, MhZone, MrFiles, MrInfo};
use crate::{Result, Zone, sys, told};
use std::fmt;

/// A resource type.
#[repr(transparent)]
#[derive(Clone, Copy, Default, PartialEq, Eq, Hash)]
pub struct ResType(u32);

impl ResType {
    pub const fn new(letters: &[u8; 4]) -> ResType {
        ResType(u32::from_be_bytes(*letters))
    }

    pub const fn letters(self) -> [u8; 4] {
        self.0.to_be_bytes()
    }
}

impl fmt::Debug for ResType {
    fn fmt(&self, f: &mut fmt::Formatter) -> fmt::Result {
        write!(f, "'{}'", self.letters().escape_ascii())
    }
}

/// What a resource is called. Its name is in MacRoman, and has no bytes where it has none.
#[derive(Clone, Debug, PartialEq, Eq)]
pub struct ResInfo {
    pub kind: ResType,
    pub id: i16,
    pub name: Vec<u8>,
}

/// Resource files, 255 at most, with their forks in memory. What isn't written when they are dropped stays unwritten. Each call is
/// given the zone of its resource (`MR_OTHER_ZONE` says if that is another), and handles that may be of resources are disposed of by `dispose_handle` of this type.
pub struct Files(MrFiles);

/// Whether the resource of a call that read or wrote its bytes is in memory.
fn told_in_memory(code: i16) -> Result<bool> {
    match code {
        sys::MR_RESOURCE_IN_MEMORY => Ok(true),
        code => told(code).map(|()| false),
    }
}

// In each `unsafe` below the files are these alone, and each pointer leads to a value or to bytes of its own.
impl Files {
    pub fn new() -> Result<Files> {
        let mut files = Files(MR_NO_FILES);
        told(unsafe { sys::mr_begin(&mut files.0) })?;
        Ok(files)
    }

    /// Opens a file on a copy of a fork, and returns its number.
    pub fn open(&mut self, zone: &mut Zone, fork: &[u8]) -> Result<u32> {
        let mut file = 0;
        told(unsafe { sys::mr_open(&mut self.0, &mut zone.0, fork.as_ptr(), fork.len(), &mut file) })?;
        Ok(file)
    }

    /// A copy of the fork of a file as it is now: after an update the new one.
    pub fn fork(&mut self, file: u32) -> Result<Vec<u8>> {
        let mut length = 0;
        told(unsafe { sys::mr_fork_size(&mut self.0, file, &mut length) })?;
        let mut fork = vec![0; length];
        told(unsafe { sys::mr_fork(&mut self.0, file, fork.as_mut_ptr(), fork.len()) })?;
        Ok(fork)
    }

    /// All that the files are, as bytes, for `load` over the same zone or one that is made of its bytes.
    pub fn save(&mut self, zone: &mut Zone) -> Result<Vec<u8>> {
        let mut size = 0;
        told(unsafe { sys::mr_save_size(&mut self.0, &mut zone.0, &mut size) })?;
        let mut bytes = vec![0; size];
        told(unsafe { sys::mr_save(&mut self.0, &mut zone.0, bytes.as_mut_ptr(), bytes.len()) })?;
        Ok(bytes)
    }

    /// The files that were saved as these bytes, as they were.
    pub fn load(zone: &mut Zone, bytes: &[u8]) -> Result<Files> {
        let mut files = Files(MR_NO_FILES);
        told(unsafe { sys::mr_load(&mut files.0, &mut zone.0, bytes.as_ptr(), bytes.len()) })?;
        Ok(files)
    }

    /// An address in the zone over which the last call has to be made that was `MR_OTHER_ZONE`.
    pub fn other_zone(&mut self) -> Result<u32> {
        let mut address = 0;
        told(unsafe { sys::mr_other_zone(&mut self.0, &mut address) })?;
        Ok(address)
    }

    /// Says which address the system zone has, where resources with resSysHeap are loaded from then on; 0 for none.
    pub fn set_system_zone(&mut self, address: u32) -> Result<()> {
        told(unsafe { sys::mr_set_system_zone(&mut self.0, address) })
    }

    /// The first handle that a resource has in a zone, if any has: before a zone ends each is disposed of.
    pub fn first_loaded(&mut self, zone: &mut Zone) -> Option<u32> {
        let mut handle = 0;
        told(unsafe { sys::mr_first_loaded(&mut self.0, &mut zone.0, &mut handle) }).ok()?;
        Some(handle)
    }

    pub fn get_named_resource(&mut self, zone: &mut Zone, kind: ResType, name: &[u8]) -> Result<u32> {
        let mut handle = 0;
        let (at, length) = (name.as_ptr(), name.len());
        told(unsafe { sys::mr_get_named_resource(&mut self.0, &mut zone.0, kind, at, length, &mut handle) })?;
        Ok(handle)
    }

    pub fn get1_named_resource(&mut self, zone: &mut Zone, kind: ResType, name: &[u8]) -> Result<u32> {
        let mut handle = 0;
        let (at, length) = (name.as_ptr(), name.len());
        told(unsafe { sys::mr_get1_named_resource(&mut self.0, &mut zone.0, kind, at, length, &mut handle) })?;
        Ok(handle)
    }

    /// Reads the bytes of a resource from its fork, from an offset on, as many as `bytes` has, and says whether the resource is in memory.
    pub fn read_partial_resource(&mut self, zone: &mut Zone, handle: u32, offset: u32, bytes: &mut [u8]) -> Result<bool> {
        let (at, count) = (bytes.as_mut_ptr(), bytes.len());
        told_in_memory(unsafe { sys::mr_read_partial_resource(&mut self.0, &mut zone.0, handle, offset, at, count) })
    }

    /// Writes bytes over those that a resource has in its fork, from an offset on, and says whether the resource is in memory.
    pub fn write_partial_resource(&mut self, zone: &mut Zone, handle: u32, offset: u32, bytes: &[u8]) -> Result<bool> {
        let (at, count) = (bytes.as_ptr(), bytes.len());
        told_in_memory(unsafe { sys::mr_write_partial_resource(&mut self.0, &mut zone.0, handle, offset, at, count) })
    }

    pub fn get_res_info(&mut self, zone: &mut Zone, handle: u32) -> Result<ResInfo> {
        let mut info = MrInfo::default();
        let mut name = vec![0; 255];
        told(unsafe { sys::mr_get_res_info(&mut self.0, &mut zone.0, handle, &mut info, name.as_mut_ptr(), name.len()) })?;
        name.truncate(info.name_length as usize);
        Ok(ResInfo { kind: info.kind, id: info.id, name })
    }

    /// Makes a handle's block a resource of the current file, without a name where `name` has no bytes.
    pub fn add_resource(&mut self, zone: &mut Zone, handle: u32, kind: ResType, id: i16, name: &[u8]) -> Result<()> {
        let (at, length) = (name.as_ptr(), name.len());
        told(unsafe { sys::mr_add_resource(&mut self.0, &mut zone.0, handle, kind, id, at, length) })
    }

    /// Gives a resource another id, and another name unless `name` has no bytes.
    pub fn set_res_info(&mut self, handle: u32, id: i16, name: &[u8]) -> Result<()> {
        told(unsafe { sys::mr_set_res_info(&mut self.0, handle, id, name.as_ptr(), name.len()) })
    }
}

impl Drop for Files {
    fn drop(&mut self) {
        unsafe { sys::mr_end(&mut self.0) };
    }
}

/// Declares functions of resman.h, and makes a method of each: it returns the result, or the code if that isn't 0.
macro_rules! calls {
    ($($call:ident is $name:ident($($operand:ident: $kind:ty),*) $(-> $result:ident: $type:ty)?;)*) => {
        unsafe extern "C" {
            $(fn $call(files: &mut MrFiles, zone: &mut MhZone, $($operand: $kind,)* $($result: &mut $type)?) -> i16;)*
        }
        #[allow(unused_parens)]
        impl Files {$(
            pub fn $name(&mut self, zone: &mut Zone, $($operand: $kind),*) -> Result<($($type)?)> {
                $(let mut $result = <$type>::default();)?
                told(unsafe { $call(&mut self.0, &mut zone.0, $($operand,)* $(&mut $result)?) })?;
                Ok(($($result)?))
            }
        )*}
    };
}

calls! {
    mr_get_resource is get_resource(kind: ResType, id: i16) -> handle: u32;
    mr_get1_resource is get1_resource(kind: ResType, id: i16) -> handle: u32;
    mr_get_ind_resource is get_ind_resource(kind: ResType, index: u32) -> handle: u32;
    mr_get1_ind_resource is get1_ind_resource(kind: ResType, index: u32) -> handle: u32;
    mr_load_resource is load_resource(handle: u32);
    mr_set_res_load is set_res_load(load: u32);
    mr_release_resource is release_resource(handle: u32);
    mr_detach_resource is detach_resource(handle: u32);
    mr_get_res_attrs is get_res_attrs(handle: u32) -> number: u32;
    mr_size_resource is size_resource(handle: u32) -> number: u32;
    mr_set_resource_size is set_resource_size(handle: u32, size: u32);
    mr_home_res_file is home_res_file(handle: u32) -> number: u32;
    mr_unique_id is unique_id(kind: ResType) -> number: u32;
    mr_unique1_id is unique1_id(kind: ResType) -> number: u32;
    mr_count_types is count_types() -> number: u32;
    mr_count1_types is count1_types() -> number: u32;
    mr_count_resources is count_resources(kind: ResType) -> number: u32;
    mr_count1_resources is count1_resources(kind: ResType) -> number: u32;
    mr_get_ind_type is get_ind_type(index: u32) -> kind: ResType;
    mr_get1_ind_type is get1_ind_type(index: u32) -> kind: ResType;
    mr_cur_res_file is cur_res_file() -> number: u32;
    mr_use_res_file is use_res_file(file: u32);
    mr_changed_resource is changed_resource(handle: u32);
    mr_set_res_attrs is set_res_attrs(handle: u32, attributes: u32);
    mr_rmve_resource is rmve_resource(handle: u32);
    mr_write_resource is write_resource(handle: u32);
    mr_update_res_file is update_res_file(file: u32);
    mr_close_res_file is close_res_file(file: u32);
    mr_dispose_handle is dispose_handle(handle: u32);
    mr_forget is forget();
}
