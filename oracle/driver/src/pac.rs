//! The registers, by name. A write or modify becomes records, a read is answered by the script.
use record::Field;
use std::marker::PhantomData;

/// What a field or a whole register can hold.
pub trait Value: Sized {
    fn number(self) -> u32;
    fn of(number: u32) -> Self;
}

impl Value for bool {
    fn number(self) -> u32 {
        self.into()
    }

    fn of(number: u32) -> Self {
        number != 0
    }
}

macro_rules! integers {
    ($($type:ty)*) => {
        $(
            impl Value for $type {
                fn number(self) -> u32 {
                    self.into()
                }

                fn of(number: u32) -> Self {
                    number.try_into().expect("the script's reading is wider than its field")
                }
            }

            impl Content for $type {
                fn reset(_: &'static str, _: u32) -> Self {
                    0
                }

                fn read(register: &'static str, index: u32) -> Self {
                    let fields = record::read(register, index);
                    Self::of(fields.iter().find(|f| f.0 == "all").map_or(0, |f| f.1))
                }

                fn set(self) -> Vec<Field> {
                    vec![Field { name: "all", index: None, value: self.into(), clears: false }]
                }
            }
        )*
    };
}

integers!(u8 u16 u32);

/// Named values; their numbers are the port's own (docs/REGISTERS.md).
macro_rules! named {
    ($($(#[$attribute:meta])* $type:ident { $($name:ident = $number:literal),* })*) => {
        $(
            $(#[$attribute])*
            #[allow(non_camel_case_types, clippy::upper_case_acronyms)]
            #[derive(Clone, Copy, Debug, PartialEq, Eq)]
            pub enum $type {
                $($name = $number),*
            }

            impl crate::pac::Value for $type {
                fn number(self) -> u32 {
                    self as u32
                }

                fn of(number: u32) -> Self {
                    match number {
                        $($number => Self::$name,)*
                        _ => panic!("the script's reading has no such value"),
                    }
                }
            }

            impl $type {
                pub fn to_bits(self) -> u8 {
                    self as u8
                }
            }
        )*
    };
}

/// What a register holds: a number, or fields.
pub trait Content: Sized {
    fn reset(register: &'static str, index: u32) -> Self;
    fn read(register: &'static str, index: u32) -> Self;
    /// The fields that were set, in sequence.
    fn set(self) -> Vec<Field>;
}

pub struct Reg<T> {
    name: &'static str,
    index: u32,
    content: PhantomData<T>,
}

impl<T: Content> Reg<T> {
    fn new(name: &'static str, index: usize) -> Self {
        Self { name, index: index as u32, content: PhantomData }
    }

    pub fn read(&self) -> T {
        T::read(self.name, self.index)
    }

    pub fn write_value(&self, value: T) {
        record::write(self.name, self.index, &value.set());
    }

    pub fn write<R>(&self, f: impl FnOnce(&mut T) -> R) -> R {
        let mut value = T::reset(self.name, self.index);
        let result = f(&mut value);
        record::write(self.name, self.index, &value.set());
        result
    }

    pub fn modify<R>(&self, f: impl FnOnce(&mut T) -> R) -> R {
        let mut value = T::reset(self.name, self.index);
        let result = f(&mut value);
        record::modify(self.name, self.index, &value.set());
        result
    }
}

/// Types with fields. `get` reads a field, `set` sets one; a function of the type's name makes
/// a value from the whole register's number, as the tuple struct of the register crate does.
macro_rules! fieldsets {
    ($($type:ident { $($get:ident: $get_type:ty),* ; $($set:ident = $field:literal: $set_type:ty),* })*) => {
        $(
            pub struct $type {
                place: (&'static str, u32),
                given: Vec<(&'static str, u32)>,
                set: Vec<Field>,
            }

            #[allow(non_snake_case)]
            pub fn $type(all: u32) -> $type {
                let set = vec![Field { name: "all", index: None, value: all, clears: false }];
                $type { place: ("", 0), given: Vec::new(), set }
            }

            impl Content for $type {
                fn reset(register: &'static str, index: u32) -> Self {
                    Self { place: (register, index), given: Vec::new(), set: Vec::new() }
                }

                fn read(register: &'static str, index: u32) -> Self {
                    let given = record::read(register, index);
                    Self { place: (register, index), given, set: Vec::new() }
                }

                fn set(self) -> Vec<Field> {
                    self.set
                }
            }

            impl $type {
                $(
                    pub fn $get(&self) -> $get_type {
                        let name = stringify!($get);
                        Value::of(self.given.iter().find(|f| f.0 == name).map_or(0, |f| f.1))
                    }
                )*
                $(
                    pub fn $set(&mut self, value: $set_type) {
                        let value = value.number();
                        self.set.push(Field { name: $field, index: None, value, clears: false });
                    }
                )*
            }
        )*
    };
}

pub mod rcc {
    pub mod vals {
        named! { UsbsspllRefsel { F25MHZ = 1 } }
    }
}

/// Clock gates are left to the board: their fields are notes, not records.
pub struct Rcc;
pub const RCC: Rcc = Rcc;

pub struct ClockGates;

impl Rcc {
    pub fn cfgr0(&self) -> ClockGates {
        ClockGates
    }
}

impl ClockGates {
    pub fn modify(&self, f: impl FnOnce(&mut Self)) {
        f(&mut ClockGates);
    }

    pub fn set_pipeon(&mut self, on: bool) {
        record::aside(format!("PIPE clock {on}"));
    }

    pub fn set_utmion(&mut self, on: bool) {
        record::aside(format!("UTMI clock {on}"));
    }
}

pub struct Usbss;
pub const USBSS: Usbss = Usbss;

impl Usbss {
    pub const fn as_ptr(&self) -> *mut () {
        std::ptr::null_mut()
    }
}

pub mod usbss {
    use super::Reg;

    pub mod vals {
        named! {
            Ep0RxRes { ACK = 1, NRDY = 3, STALL = 4 }
            Ep0TxRes { DPH = 2, NRDY = 3, STALL = 4 }
            PdMode { P2 = 5 }
            TxDeemph { DB3_5 = 6 }
            LinkState {
                OTHER = 0, RXDET = 1, RECOVERY = 2, DISABLED = 3, U0 = 4, U1 = 5, U2 = 6, U3 = 7, HOTRST = 8
            }
        }
    }

    pub mod regs {
        use super::super::{Content, Value};
        use super::vals::{Ep0RxRes, Ep0TxRes, LinkState, PdMode, TxDeemph};
        use record::Field;

        fieldsets! {
            LinkCfg { ;
                set_link_rx_eq_en = "link_rx_eq_en": bool,
                set_link_tx_deemph = "link_tx_deemph": TxDeemph,
                set_link_phy_reset = "link_phy_reset": bool,
                set_link_reset = "link_reset": bool,
                set_link_ltssm_mode = "link_ltssm_mode": bool,
                set_link_tout_mode = "link_tout_mode": bool,
                set_link_rx_term_en = "link_rx_term_en": bool,
                set_link_u1_allow = "link_u1_allow": bool,
                set_link_u2_allow = "link_u2_allow": bool,
                set_link_u2_det_en = "link_u2_det_en": bool,
                set_link_down_mode = "link_down_mode": bool
            }
            LinkCtrl { ;
                set_link_pd_mode = "link_pd_mode": PdMode,
                set_link_go_disabled = "link_go_disabled": bool,
                set_link_go_rx_det = "link_go_rx_det": bool,
                set_link_tx_ux_exit = "link_tx_ux_exit": bool
            }
            LinkIntCtrl { ;
                set_link_ie_tx_lmp = "link_ie_tx_lmp": bool,
                set_link_ie_rx_lmp = "link_ie_rx_lmp": bool,
                set_link_ie_rx_lmp_tout = "link_ie_rx_lmp_tout": bool,
                set_link_ie_state_chg = "link_ie_state_chg": bool,
                set_link_ie_warm_rst = "link_ie_warm_rst": bool,
                set_link_ie_term_pres = "link_ie_term_pres": bool,
                set_link_ie_rx_set_fc = "link_ie_rx_set_fc": bool
            }
            LinkIntFlag {
                link_if_tx_lmp: bool,
                link_if_rx_lmp: bool,
                link_if_rx_lmp_tout: bool,
                link_if_state_chg: bool,
                link_if_warm_rst: bool,
                link_if_term_pres: bool,
                link_if_rx_set_fc: bool
                ;
                set_link_if_tx_lmp = "link_if_tx_lmp": bool,
                set_link_if_rx_lmp = "link_if_rx_lmp": bool,
                set_link_if_rx_lmp_tout = "link_if_rx_lmp_tout": bool,
                set_link_if_state_chg = "link_if_state_chg": bool,
                set_link_if_warm_rst = "link_if_warm_rst": bool,
                set_link_if_term_pres = "link_if_term_pres": bool,
                set_link_if_rx_set_fc = "link_if_rx_set_fc": bool
            }
            LinkStatus {
                link_state: LinkState,
                link_rx_term_pres: bool,
                link_rx_warm_rst: bool,
                link_busy: bool
                ;
            }
            LinkLpmCr { ; set_lpm_en = "lpm_en": bool }
            LinkU1WkupTmr { ; set_u1_wkup_tmr = "u1_wkup_tmr": u8 }
            LinkU1WkupFilter { ; set_u1_wkup_filter = "u1_wkup_filter": u8 }
            LinkU2WkupFilter { ; set_u2_wkup_filter = "u2_wkup_filter": u8 }
            LinkU3WkupFilter { ; set_u3_wkup_filter = "u3_wkup_filter": u8 }
            LinkU2InactTimer { ; set_u2_inactive_timer = "u2_inactive_timer": u8 }
            LinkItpPre { ; set_itp_pre = "itp_pre": u8 }
            LinkLmpPortCap {
                force_pm: bool
                ;
                set_link_lmp_tx_cap_vld = "link_lmp_tx_cap_vld": bool
            }
            PhyCfgCr { ;
                set_phy_cfg_data = "phy_cfg_data": u16,
                set_phy_cfg_addr = "phy_cfg_addr": u8,
                set_phy_cfg_write = "phy_cfg_write": bool
            }
            PhyCfgDat { ; set_phy_cfg_data = "phy_cfg_data": u16 }
            UsbssCtrl { ;
                set_force_rst = "force_rst": bool,
                set_uie_transfer = "uie_transfer": bool,
                set_udie_setup = "udie_setup": bool,
                set_udie_status = "udie_status": bool,
                set_dma_en = "dma_en": bool,
                set_setup_flow = "setup_flow": bool,
                set_usb_clr_all = "usb_clr_all": bool,
                set_dev_addr = "dev_addr": u8,
                set_host_mode = "host_mode": bool,
                set_itp_en = "itp_en": bool,
                set_reg_hp_pend = "reg_hp_pend": u8
            }
            Status {
                uif_transfer: bool,
                udif_setup: bool,
                udif_status: bool,
                uif_rx_ping: bool,
                uif_itp: bool,
                uif_fifo_txov: bool,
                uif_fifo_rxov: bool,
                ep_id: u8,
                ep_dir: bool
                ;
                set_uif_transfer = "uif_transfer": bool,
                set_udif_setup = "udif_setup": bool,
                set_udif_status = "udif_status": bool,
                set_uif_rx_ping = "uif_rx_ping": bool,
                set_uif_itp = "uif_itp": bool,
                set_uif_fifo_txov = "uif_fifo_txov": bool,
                set_uif_fifo_rxov = "uif_fifo_rxov": bool
            }
            UepTxEn { ; }
            UepRxEn { ; }
            Uep0TxCtrl {
                ep0_tx_seq: u8
                ;
                set_ep0_tx_res = "ep0_tx_res": Ep0TxRes,
                set_ep0_tx_seq = "ep0_tx_seq": u8,
                set_ep0_tx_len = "ep0_tx_len": u16,
                set_ep0_tx_erdy = "ep0_tx_erdy": bool
            }
            Uep0RxCtrl {
                ep0_rx_len: u16
                ;
                set_ep0_rx_res = "ep0_rx_res": Ep0RxRes,
                set_ep0_rx_erdy = "ep0_rx_erdy": bool
            }
            EpCfg { ;
                set_chain_auto = "chain_auto": bool,
                set_erdy_auto = "erdy_auto": bool,
                set_seq_auto = "seq_auto": bool,
                set_iso_mode = "iso_mode": bool
            }
            TxCr { ;
                set_clr = "clr": bool,
                set_chain_clr = "chain_clr": bool,
                set_halt = "halt": bool
            }
            EpSt { ; set_int_flag = "int_flag": bool, set_erdy_req = "erdy_req": bool }
            EpChainSt { ; set_chain_if = "chain_if": bool }
            EpChainLen { len: u16 ; set_len = "len": u16 }
            HostDma { ; set_uh_tx_dma = "uh_tx_dma": u32, set_uh_rx_dma = "uh_rx_dma": u32 }
            HostCtrl { ; }
        }

        // The bits of the enable registers: their record's index is the endpoint.
        impl UepTxEn {
            pub fn set_ep_tx_en(&mut self, n: usize, on: bool) {
                let index = Some(n as u32 + 1);
                self.set.push(Field { name: "ep_tx_en", index, value: on.into(), clears: false });
            }
        }

        impl UepRxEn {
            pub fn set_ep_rx_en(&mut self, n: usize, on: bool) {
                let index = Some(n as u32 + 1);
                self.set.push(Field { name: "ep_rx_en", index, value: on.into(), clears: false });
            }
        }

        /// A field as it stands in the register, whatever that is.
        pub struct Standing;
        /// The same with some bits cleared.
        pub struct Cleared(u8);

        impl std::ops::BitAnd<u8> for Standing {
            type Output = Cleared;

            fn bitand(self, kept: u8) -> Cleared {
                Cleared(!kept)
            }
        }

        impl LinkCtrl {
            pub fn link_tx_ts_cfg(&self) -> Standing {
                Standing
            }

            pub fn set_link_tx_ts_cfg(&mut self, value: Cleared) {
                let value = value.0.into();
                self.set.push(Field { name: "link_tx_ts_cfg", index: None, value, clears: true });
            }
        }

        /// A read of it takes no reading: its one field is only ever compared.
        pub struct RxCr {
            place: (&'static str, u32),
            set: Vec<Field>,
        }

        impl Content for RxCr {
            fn reset(register: &'static str, index: u32) -> Self {
                Self { place: (register, index), set: Vec::new() }
            }

            fn read(register: &'static str, index: u32) -> Self {
                Self::reset(register, index)
            }

            fn set(self) -> Vec<Field> {
                self.set
            }
        }

        pub struct Window(&'static str, u32);

        impl PartialEq<u8> for Window {
            fn eq(&self, value: &u8) -> bool {
                record::compare(self.0, self.1, "erdy_nump", (*value).into())
            }
        }

        impl RxCr {
            pub fn erdy_nump(&self) -> Window {
                Window(self.place.0, self.place.1)
            }

            fn push(&mut self, name: &'static str, value: u32) {
                self.set.push(Field { name, index: None, value, clears: false });
            }

            pub fn set_erdy_nump(&mut self, value: u8) {
                self.push("erdy_nump", value.into());
            }

            pub fn set_clr(&mut self, value: bool) {
                self.push("clr", value.into());
            }

            pub fn set_chain_clr(&mut self, value: bool) {
                self.push("chain_clr", value.into());
            }

            pub fn set_halt(&mut self, value: bool) {
                self.push("halt", value.into());
            }
        }
    }

    /// A block of registers; `whole` ones stand alone, `placed` ones have an index.
    macro_rules! blocks {
        ($($block:ident { $($name:ident: $content:ty),* ; $($placed:ident: $placed_content:ty),* })*) => {
            $(
                #[derive(Clone, Copy)]
                pub struct $block;

                impl $block {
                    /// # Safety
                    /// None is needed: the pointer isn't kept.
                    pub const unsafe fn from_ptr(_: *mut ()) -> Self {
                        Self
                    }

                    $(
                        pub fn $name(self) -> Reg<$content> {
                            Reg::new(stringify!($name), 0)
                        }
                    )*
                    $(
                        pub fn $placed(self, n: usize) -> Reg<$placed_content> {
                            Reg::new(stringify!($placed), n)
                        }
                    )*
                }
            )*
        };
    }

    blocks! {
        UsbssDevice {
            link_cfg: regs::LinkCfg,
            link_ctrl: regs::LinkCtrl,
            link_int_ctrl: regs::LinkIntCtrl,
            link_int_flag: regs::LinkIntFlag,
            link_status: regs::LinkStatus,
            link_lpm_cr: regs::LinkLpmCr,
            link_u1_wkup_tmr: regs::LinkU1WkupTmr,
            link_u1_wkup_filter: regs::LinkU1WkupFilter,
            link_u2_wkup_filter: regs::LinkU2WkupFilter,
            link_u3_wkup_filter: regs::LinkU3WkupFilter,
            link_u2_inact_timer: regs::LinkU2InactTimer,
            link_lmp_port_cap: regs::LinkLmpPortCap,
            phy_cfg_cr: regs::PhyCfgCr,
            phy_cfg_dat: regs::PhyCfgDat,
            usbss_ctrl: regs::UsbssCtrl,
            status: regs::Status,
            uep_tx_en: regs::UepTxEn,
            uep_rx_en: regs::UepRxEn,
            uep0_tx_dma: u32,
            uep0_rx_dma: u32,
            uep0_tx_dma_ofs: u16,
            uep0_rx_dma_ofs: u16,
            uep0_tx_ctrl: regs::Uep0TxCtrl,
            uep0_rx_ctrl: regs::Uep0RxCtrl
            ;
            link_lmp_tx_data: u32,
            link_lmp_rx_data: u32
        }
        UsbssHost {
            link_cfg: regs::LinkCfg,
            link_ctrl: regs::LinkCtrl,
            link_int_ctrl: regs::LinkIntCtrl,
            link_int_flag: regs::LinkIntFlag,
            link_status: regs::LinkStatus,
            link_lpm_cr: regs::LinkLpmCr,
            link_itp_pre: regs::LinkItpPre,
            link_lmp_port_cap: regs::LinkLmpPortCap,
            usbss_ctrl: regs::UsbssCtrl,
            status: regs::Status,
            uh_tx_ctrl: regs::HostCtrl,
            uh_rx_ctrl: regs::HostCtrl,
            uh_tx_dma: regs::HostDma,
            uh_rx_dma: regs::HostDma
            ;
            link_lmp_tx_data: u32,
            link_lmp_rx_data: u32
        }
    }

    macro_rules! endpoint_blocks {
        ($($block:ident $prefix:literal { $($name:ident: $content:ty),* })*) => {
            $(
                #[derive(Clone, Copy)]
                pub struct $block(usize);

                impl $block {
                    $(
                        pub fn $name(self) -> Reg<$content> {
                            Reg::new(concat!($prefix, stringify!($name)), self.0)
                        }
                    )*
                }
            )*
        };
    }

    endpoint_blocks! {
        EpTx "tx." {
            cfg: regs::EpCfg,
            cr: regs::TxCr,
            st: regs::EpSt,
            chain_st: regs::EpChainSt,
            dma: u32,
            dma_ofs: u16,
            chain_len: regs::EpChainLen,
            chain_exp_nump: u8
        }
        EpRx "rx." {
            cfg: regs::EpCfg,
            cr: regs::RxCr,
            st: regs::EpSt,
            chain_st: regs::EpChainSt,
            dma: u32,
            dma_ofs: u16,
            chain_len: regs::EpChainLen,
            chain_nump: u8,
            chain_max_nump: u8
        }
    }

    impl UsbssDevice {
        /// The block counts from 0, the records' index is the endpoint.
        pub fn ep_tx(self, n: usize) -> EpTx {
            assert!(n < 7, "no such endpoint");
            EpTx(n + 1)
        }

        pub fn ep_rx(self, n: usize) -> EpRx {
            assert!(n < 7, "no such endpoint");
            EpRx(n + 1)
        }
    }
}
