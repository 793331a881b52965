//! The registers, each a volatile cell. Places and bits are ours: what a write or a modify costs doesn't hang on them.
//! Device and host see one block here, which has the registers of both.
//!
//! With `--cfg counted` the records that the port has for the same work are counted: one for each field that is set and
//! for each register that is written as a whole.
use core::sync::atomic::{AtomicU32, Ordering};

pub static RECORDS: AtomicU32 = AtomicU32::new(0);

#[inline(always)]
fn record() {
    if cfg!(counted) {
        RECORDS.fetch_add(1, Ordering::Relaxed);
    }
}

pub struct Reg<T>(*mut T);

impl<T: Copy + Default> Reg<T> {
    #[inline(always)]
    pub fn read(&self) -> T {
        unsafe { self.0.read_volatile() }
    }

    #[inline(always)]
    pub fn write_value(&self, value: T) {
        record();
        unsafe { self.0.write_volatile(value) }
    }

    #[inline(always)]
    pub fn write<R>(&self, f: impl FnOnce(&mut T) -> R) -> R {
        let mut value = T::default();
        let result = f(&mut value);
        unsafe { self.0.write_volatile(value) };
        result
    }

    #[inline(always)]
    pub fn modify<R>(&self, f: impl FnOnce(&mut T) -> R) -> R {
        let mut value = self.read();
        let result = f(&mut value);
        unsafe { self.0.write_volatile(value) };
        result
    }
}

/// Registers of a block, by their distance from its start.
macro_rules! registers {
    ($block:ident { $($name:ident: $type:ty = $at:literal),* $(,)? }) => {
        #[derive(Clone, Copy)]
        pub struct $block(*mut u8);

        impl $block {
            $(
                #[inline(always)]
                pub fn $name(self) -> Reg<$type> {
                    Reg(unsafe { self.0.add($at) }.cast())
                }
            )*
        }
    };
}

/// Registers with fields: a setter with its first bit and its width, then the flags that are read, each with its bit.
macro_rules! fieldsets {
    ($(
        $type:ident { $($set:ident: $value:ty = $bit:literal, $width:literal);* } $([$($get:ident = $flag:literal),*])?
    )*) => {
        $(
            #[derive(Clone, Copy, Default)]
            pub struct $type(pub u32);

            impl $type {
                $(
                    #[inline(always)]
                    pub fn $set(&mut self, value: $value) {
                        super::super::record();
                        let mask = u32::MAX >> (32 - $width);
                        self.0 = self.0 & !(mask << $bit) | (value as u32 & mask) << $bit;
                    }
                )*
                $($(
                    #[inline(always)]
                    pub fn $get(&self) -> bool {
                        self.0 >> $flag & 1 != 0
                    }
                )*)?
            }
        )*
    };
}

pub mod usbss {
    use super::Reg;

    pub mod vals {
        #[derive(Clone, Copy)]
        pub enum Ep0RxRes {
            NRDY,
            ACK,
            STALL,
        }

        #[derive(Clone, Copy)]
        pub enum Ep0TxRes {
            NRDY,
            DPH,
            STALL,
        }

        #[derive(Clone, Copy)]
        pub enum PdMode {
            P2 = 2,
        }

        #[derive(Clone, Copy)]
        #[allow(non_camel_case_types)]
        pub enum TxDeemph {
            DB3_5 = 1,
        }

        #[derive(Clone, Copy, PartialEq, Eq)]
        #[allow(clippy::upper_case_acronyms)]
        pub enum LinkState {
            U0,
            U1,
            U2,
            U3,
            DISABLED,
            RXDET,
            RECOVERY,
            HOTRST,
            OTHER,
        }

        impl LinkState {
            pub fn to_bits(self) -> u8 {
                self as u8
            }
        }
    }

    pub mod regs {
        use super::vals::{Ep0RxRes, Ep0TxRes, LinkState, PdMode, TxDeemph};

        fieldsets! {
            LinkCfg {
                set_link_rx_eq_en: bool = 0, 1; set_link_tx_deemph: TxDeemph = 1, 2; set_link_phy_reset: bool = 3, 1;
                set_link_reset: bool = 4, 1; set_link_ltssm_mode: bool = 5, 1; set_link_tout_mode: bool = 6, 1;
                set_link_rx_term_en: bool = 7, 1; set_link_u1_allow: bool = 8, 1; set_link_u2_allow: bool = 9, 1;
                set_link_u2_det_en: bool = 10, 1; set_link_down_mode: bool = 11, 1
            }
            LinkCtrl {
                set_link_pd_mode: PdMode = 0, 2; set_link_go_disabled: bool = 2, 1; set_link_go_rx_det: bool = 3, 1;
                set_link_tx_ux_exit: bool = 4, 1; set_link_tx_ts_cfg: u8 = 8, 8
            }
            LinkLpmCr { set_lpm_en: bool = 0, 1 }
            LinkIntCtrl {
                set_link_ie_tx_lmp: bool = 0, 1; set_link_ie_rx_lmp: bool = 1, 1; set_link_ie_rx_lmp_tout: bool = 2, 1;
                set_link_ie_state_chg: bool = 3, 1; set_link_ie_warm_rst: bool = 4, 1;
                set_link_ie_term_pres: bool = 5, 1; set_link_ie_rx_set_fc: bool = 6, 1
            }
            LinkIntFlag {
                set_link_if_tx_lmp: bool = 0, 1; set_link_if_rx_lmp: bool = 1, 1; set_link_if_rx_lmp_tout: bool = 2, 1;
                set_link_if_state_chg: bool = 3, 1; set_link_if_warm_rst: bool = 4, 1;
                set_link_if_term_pres: bool = 5, 1; set_link_if_rx_set_fc: bool = 6, 1
            } [
                link_if_tx_lmp = 0, link_if_rx_lmp = 1, link_if_rx_lmp_tout = 2, link_if_state_chg = 3,
                link_if_warm_rst = 4, link_if_term_pres = 5, link_if_rx_set_fc = 6
            ]
            LinkStatus {} [link_rx_term_pres = 8, link_rx_warm_rst = 9, link_busy = 10]
            LinkU1WkupTmr { set_u1_wkup_tmr: u8 = 0, 8 }
            LinkU1WkupFilter { set_u1_wkup_filter: u8 = 0, 8 }
            LinkU2WkupFilter { set_u2_wkup_filter: u8 = 0, 8 }
            LinkU3WkupFilter { set_u3_wkup_filter: u8 = 0, 8 }
            LinkU2InactTimer { set_u2_inactive_timer: u8 = 0, 8 }
            LinkLmpPortCap { set_link_lmp_tx_cap_vld: bool = 1, 1 } [force_pm = 0]
            LinkItpPre { set_itp_pre: u8 = 0, 8 }
            PhyCfgCr { set_phy_cfg_data: u16 = 0, 16; set_phy_cfg_addr: u8 = 16, 8; set_phy_cfg_write: bool = 24, 1 }
            PhyCfgDat { set_phy_cfg_data: u16 = 0, 16 }
            UsbssCtrl {
                set_force_rst: bool = 0, 1; set_uie_transfer: bool = 1, 1; set_udie_setup: bool = 2, 1;
                set_udie_status: bool = 3, 1; set_dma_en: bool = 4, 1; set_setup_flow: bool = 5, 1;
                set_usb_clr_all: bool = 6, 1; set_host_mode: bool = 7, 1; set_itp_en: bool = 8, 1;
                set_reg_hp_pend: u8 = 9, 2; set_dev_addr: u8 = 16, 7
            }
            Status {
                set_uif_transfer: bool = 0, 1; set_udif_setup: bool = 1, 1; set_udif_status: bool = 2, 1;
                set_uif_rx_ping: bool = 3, 1; set_uif_itp: bool = 4, 1; set_uif_fifo_txov: bool = 5, 1;
                set_uif_fifo_rxov: bool = 6, 1
            } [
                uif_transfer = 0, udif_setup = 1, udif_status = 2, uif_rx_ping = 3, uif_itp = 4, uif_fifo_txov = 5,
                uif_fifo_rxov = 6, ep_dir = 7
            ]
            UepTxEn {}
            UepRxEn {}
            Uep0TxCtrl {
                set_ep0_tx_seq: u8 = 0, 5; set_ep0_tx_len: u16 = 8, 10; set_ep0_tx_erdy: bool = 20, 1;
                set_ep0_tx_res: Ep0TxRes = 24, 2
            }
            Uep0RxCtrl { set_ep0_rx_erdy: bool = 20, 1; set_ep0_rx_res: Ep0RxRes = 24, 2 }
            EpCfg {
                set_chain_auto: bool = 0, 1; set_erdy_auto: bool = 1, 1; set_seq_auto: bool = 2, 1;
                set_iso_mode: bool = 3, 1
            }
            EpTxCr { set_clr: bool = 0, 1; set_chain_clr: bool = 1, 1; set_halt: bool = 2, 1 }
            EpRxCr { set_clr: bool = 0, 1; set_chain_clr: bool = 1, 1; set_halt: bool = 2, 1 }
            EpSt { set_int_flag: bool = 0, 1; set_erdy_req: bool = 1, 1 }
            EpChainSt { set_chain_if: bool = 0, 1 }
            EpChainLen { set_len: u16 = 0, 16 }
            UhTxCtrl {}
            UhRxCtrl {}
            UhTxDma { set_uh_tx_dma: u32 = 0, 32 }
            UhRxDma { set_uh_rx_dma: u32 = 0, 32 }
        }

        // The fields that are numbers to a reader, or have an index.
        impl LinkStatus {
            pub fn link_state(&self) -> LinkState {
                use LinkState::*;
                *[U0, U1, U2, U3, DISABLED, RXDET, RECOVERY, HOTRST].get(self.0 as usize & 15).unwrap_or(&OTHER)
            }
        }

        impl LinkCtrl {
            pub fn link_tx_ts_cfg(&self) -> u8 {
                (self.0 >> 8) as u8
            }
        }

        impl Status {
            pub fn ep_id(&self) -> u8 {
                (self.0 >> 8 & 15) as u8
            }
        }

        impl Uep0TxCtrl {
            pub fn ep0_tx_seq(&self) -> u8 {
                (self.0 & 31) as u8
            }
        }

        impl Uep0RxCtrl {
            pub fn ep0_rx_len(&self) -> u16 {
                self.0 as u16
            }
        }

        #[allow(clippy::len_without_is_empty)]
        impl EpChainLen {
            #[inline(always)]
            pub fn len(&self) -> u16 {
                self.0 as u16
            }
        }

        // The port's record is the comparison; the modify behind it is part of it.
        impl EpRxCr {
            #[inline(always)]
            pub fn erdy_nump(&self) -> u8 {
                super::super::record();
                (self.0 >> 8 & 31) as u8
            }

            #[inline(always)]
            pub fn set_erdy_nump(&mut self, value: u8) {
                self.0 = self.0 & !(31 << 8) | (u32::from(value) & 31) << 8;
            }
        }

        // Indices are asserted, as register crates of this kind do it; the one that the HAL uses isn't at hand.
        impl UepTxEn {
            #[inline(always)]
            pub fn set_ep_tx_en(&mut self, n: usize, on: bool) {
                assert!(n < 7);
                super::super::record();
                self.0 = self.0 & !(1 << n) | u32::from(on) << n;
            }
        }

        impl UepRxEn {
            #[inline(always)]
            pub fn set_ep_rx_en(&mut self, n: usize, on: bool) {
                assert!(n < 7);
                super::super::record();
                self.0 = self.0 & !(1 << n) | u32::from(on) << n;
            }
        }
    }

    registers! {
        UsbssDevice {
            link_cfg: regs::LinkCfg = 0x00, link_ctrl: regs::LinkCtrl = 0x04, link_lpm_cr: regs::LinkLpmCr = 0x08,
            link_int_ctrl: regs::LinkIntCtrl = 0x0c, link_int_flag: regs::LinkIntFlag = 0x10,
            link_status: regs::LinkStatus = 0x14, link_u1_wkup_tmr: regs::LinkU1WkupTmr = 0x18,
            link_u1_wkup_filter: regs::LinkU1WkupFilter = 0x1c, link_u2_wkup_filter: regs::LinkU2WkupFilter = 0x20,
            link_u3_wkup_filter: regs::LinkU3WkupFilter = 0x24, link_u2_inact_timer: regs::LinkU2InactTimer = 0x28,
            link_lmp_port_cap: regs::LinkLmpPortCap = 0x2c, link_itp_pre: regs::LinkItpPre = 0x30,
            phy_cfg_cr: regs::PhyCfgCr = 0x34, phy_cfg_dat: regs::PhyCfgDat = 0x38,
            usbss_ctrl: regs::UsbssCtrl = 0x3c, status: regs::Status = 0x40, uep_tx_en: regs::UepTxEn = 0x44,
            uep_rx_en: regs::UepRxEn = 0x48, uep0_tx_ctrl: regs::Uep0TxCtrl = 0x4c,
            uep0_rx_ctrl: regs::Uep0RxCtrl = 0x50, uep0_tx_dma: u32 = 0x54, uep0_rx_dma: u32 = 0x58,
            uep0_tx_dma_ofs: u16 = 0x5c, uep0_rx_dma_ofs: u16 = 0x60, uh_tx_ctrl: regs::UhTxCtrl = 0x64,
            uh_rx_ctrl: regs::UhRxCtrl = 0x68, uh_tx_dma: regs::UhTxDma = 0x6c, uh_rx_dma: regs::UhRxDma = 0x70,
        }
    }
    pub type UsbssHost = UsbssDevice;

    // Cells of the chip; the program has one thread.
    unsafe impl Send for UsbssDevice {}
    unsafe impl Sync for UsbssDevice {}

    impl UsbssDevice {
        /// # Safety
        /// The block lies there.
        pub const unsafe fn from_ptr(at: *mut ()) -> Self {
            Self(at.cast())
        }

        pub fn link_lmp_tx_data(self, n: usize) -> Reg<u32> {
            assert!(n < 3);
            Reg(unsafe { self.0.add(0x80 + 4 * n) }.cast())
        }

        pub fn link_lmp_rx_data(self, n: usize) -> Reg<u32> {
            assert!(n < 3);
            Reg(unsafe { self.0.add(0x90 + 4 * n) }.cast())
        }

        #[inline(always)]
        pub fn ep_tx(self, n: usize) -> EpTx {
            assert!(n < 7);
            EpTx(unsafe { self.0.add(0x100 + 0x20 * n) })
        }

        #[inline(always)]
        pub fn ep_rx(self, n: usize) -> EpRx {
            assert!(n < 7);
            EpRx(unsafe { self.0.add(0x200 + 0x20 * n) })
        }
    }

    registers! {
        EpTx {
            cfg: regs::EpCfg = 0x00, cr: regs::EpTxCr = 0x04, st: regs::EpSt = 0x08, chain_st: regs::EpChainSt = 0x0c,
            chain_len: regs::EpChainLen = 0x10, chain_exp_nump: u8 = 0x14, dma: u32 = 0x18, dma_ofs: u16 = 0x1c,
        }
    }
    registers! {
        EpRx {
            cfg: regs::EpCfg = 0x00, cr: regs::EpRxCr = 0x04, st: regs::EpSt = 0x08, chain_st: regs::EpChainSt = 0x0c,
            chain_len: regs::EpChainLen = 0x10, chain_nump: u8 = 0x14, chain_max_nump: u8 = 0x16, dma: u32 = 0x18,
            dma_ofs: u16 = 0x1c,
        }
    }
}

/// Where the block lies; drive.c has memory there.
pub const BLOCK: usize = 0x5003_4000;
pub const BLOCK_BYTES: usize = 0x300;

pub struct Usbss;
pub const USBSS: Usbss = Usbss;

impl Usbss {
    pub const fn as_ptr(&self) -> *mut () {
        BLOCK as *mut ()
    }
}

pub mod rcc {
    pub mod vals {
        pub enum UsbsspllRefsel {
            F25MHZ,
        }
    }
}

/// Clock gates are left to the board: they cost nothing here.
pub struct Rcc;
pub const RCC: Rcc = Rcc;

impl Rcc {
    pub fn cfgr0(&self) -> Self {
        Self
    }

    pub fn modify(&self, f: impl FnOnce(&mut Self)) {
        f(&mut Self);
    }

    pub fn set_pipeon(&mut self, _: bool) {}

    pub fn set_utmion(&mut self, _: bool) {}
}
