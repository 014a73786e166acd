/// Hands the table of the calls to the macro of this name. A row is
///
///     Kind = call byte: export(buffers; numbers; outputs) refuses refusals;
///
/// with the parameters in the order of include/pagemon.h, where each buffer has its length behind it. The call byte of a call that no record can say is
/// `-`. The outputs are left out where a call gives nothing beside its answer. The refusals are those of refusals.rs, in the order in which they are
/// tested.
#[macro_export]
macro_rules! table {
    ($take:ident) => {
        $take! {
            Begin = 1: pagemon_begin(const memory, mut ledger; first_block)
                refuses MISFIT_NEW;
            CreateL1 = 2: pagemon_create_l1(const memory, mut ledger, const golden; block; hashed: u32)
                refuses MISFIT_OR_IMAGE, TABLE_OUTSIDE, MISALIGNED, NOT_DATA, COUNTED, UNACCEPTED_ENTRIES, UNFIT_ENTRIES, CLASH, UNSIGNED, OVERRUN;
            CreateL2 = 3: pagemon_create_l2(const memory, mut ledger, const golden; block; hashed: u32)
                refuses MISFIT_OR_IMAGE, BLOCK_OUTSIDE, NOT_DATA, COUNTED, UNACCEPTED_ENTRIES, UNFIT_ENTRIES, CLASH, UNSIGNED, OVERRUN;
            FreeL1 = 4: pagemon_free_l1(const memory, mut ledger; block)
                refuses MISFIT, TABLE_OUTSIDE, MISALIGNED, NOT_L1, ACTIVE, UNACCEPTED_ENTRIES, ASTRAY_ENTRIES, OVERRUN;
            FreeL2 = 5: pagemon_free_l2(const memory, mut ledger; block)
                refuses MISFIT, BLOCK_OUTSIDE, NOT_L2, LINKED, UNACCEPTED_ENTRIES, ASTRAY_ENTRIES, OVERRUN;
            MapL1 = 6: pagemon_map_l1(mut memory, mut ledger, const golden; block, index, target, rights; hashed: u32)
                refuses MISFIT_OR_IMAGE, TABLE_OUTSIDE, MISALIGNED_SECTION, BEYOND_TABLE, NOT_L1, EXECUTABLE_HOLDER, NO_FAULT, UNLAWFUL_RIGHTS,
                    UNFIT_TARGET, CLASH, UNSIGNED, OVERRUN;
            MapL2 = 7: pagemon_map_l2(mut memory, mut ledger, const golden; block, index, target, rights; hashed: u32)
                refuses MISFIT_OR_IMAGE, BLOCK_OUTSIDE, BEYOND_TABLE, NOT_L2, EXECUTABLE_HOLDER, NO_FAULT, UNLAWFUL_RIGHTS,
                    UNFIT_TARGET, CLASH, UNSIGNED, OVERRUN;
            Link = 8: pagemon_link(mut memory, mut ledger; block, index, target, table)
                refuses MISFIT, TABLE_OUTSIDE, MISALIGNED, BEYOND_TABLES, NOT_L1, EXECUTABLE_HOLDER, NO_FAULT, UNFIT_LINK, OVERRUN;
            UnmapL1 = 9: pagemon_unmap_l1(mut memory, mut ledger; block, index)
                refuses MISFIT, TABLE_OUTSIDE, MISALIGNED, BEYOND_TABLE, NOT_L1, EXECUTABLE_HOLDER, UNACCEPTED_ENTRY, ASTRAY_ENTRY, OVERRUN;
            UnmapL2 = 10: pagemon_unmap_l2(mut memory, mut ledger; block, index)
                refuses MISFIT, BLOCK_OUTSIDE, BEYOND_TABLE, NOT_L2, EXECUTABLE_HOLDER, NO_FAULT_OR_PAGE, ASTRAY_ENTRY, OVERRUN;
            Switch = 11: pagemon_switch(const memory, mut ledger; block)
                refuses MISFIT, TABLE_OUTSIDE, MISALIGNED, NOT_L1;
            Read = 12: pagemon_read(const memory, const ledger, mut registers; address; byte: u8)
                refuses MISFIT_OR_REGISTERS, NO_ACTIVE_TABLE, FAULT_ENTRY, RIGHT_LACKING, BROKEN_WALK;
            Write = 13: pagemon_write(mut memory, mut ledger, mut registers; address, byte)
                refuses MISFIT_OR_REGISTERS, NO_ACTIVE_TABLE, FAULT_ENTRY, RIGHT_LACKING, BROKEN_WALK;
            Fetch = 14: pagemon_fetch(const memory, const ledger, mut registers; address; byte: u8)
                refuses MISFIT_OR_REGISTERS, NO_ACTIVE_TABLE, FAULT_ENTRY, RIGHT_LACKING, BROKEN_WALK;
            MapLarge = 15: pagemon_map_large(mut memory, mut ledger, const golden; block, index, target, rights; hashed: u32)
                refuses MISFIT_OR_IMAGE, BLOCK_OUTSIDE, MISALIGNED_LARGE, BEYOND_TABLE, NOT_L2, EXECUTABLE_HOLDER, NOT_ALL_FAULTS, UNLAWFUL_RIGHTS,
                    UNFIT_TARGET, CLASH, UNSIGNED, OVERRUN;
            UnmapLarge = 16: pagemon_unmap_large(mut memory, mut ledger; block, index)
                refuses MISFIT, BLOCK_OUTSIDE, MISALIGNED_INDEX, BEYOND_TABLE, NOT_L2, EXECUTABLE_HOLDER, NO_LARGE_PAGE, ASTRAY_ENTRY, OVERRUN;
            Forget = -: pagemon_forget(const memory, mut ledger; block, count)
                refuses MISFIT, BLOCKS_OUTSIDE;
            BeginKinds = -: pagemon_begin_kinds(const memory, mut ledger, const kinds; first_block)
                refuses MISFIT_NEW_KINDS;
            MapL1Kind = -: pagemon_map_l1_kind(mut memory, mut ledger, const golden; block, index, target, rights, kind_number; hashed: u32)
                refuses MISFIT_OR_IMAGE, TABLE_OUTSIDE, MISALIGNED_SECTION, BEYOND_KINDS, NOT_L1, EXECUTABLE_HOLDER, NO_FAULT, UNLAWFUL_RIGHTS,
                    UNFIT_TARGET, CLASH, UNSIGNED, OVERRUN;
            MapL2Kind = -: pagemon_map_l2_kind(mut memory, mut ledger, const golden; block, index, target, rights, kind_number; hashed: u32)
                refuses MISFIT_OR_IMAGE, BLOCK_OUTSIDE, BEYOND_KINDS, NOT_L2, EXECUTABLE_HOLDER, NO_FAULT, UNLAWFUL_RIGHTS,
                    UNFIT_TARGET, CLASH, UNSIGNED, OVERRUN;
            MapLargeKind = -: pagemon_map_large_kind(mut memory, mut ledger, const golden; block, index, target, rights, kind_number; hashed: u32)
                refuses MISFIT_OR_IMAGE, BLOCK_OUTSIDE, MISALIGNED_LARGE, BEYOND_KINDS, NOT_L2, EXECUTABLE_HOLDER, NOT_ALL_FAULTS, UNLAWFUL_RIGHTS,
                    UNFIT_TARGET, CLASH, UNSIGNED, OVERRUN;
            Acknowledge = -: pagemon_acknowledge(mut registers; ; pending: u8)
                refuses MISFIT_REGISTERS;
        }
    };
}
