//! Stand-in for the `windows` crate: only what tao's keyboard files name. Every question that
//! tao puts to Windows is answered from `env`, which the driver sets for each half of a call.
#![allow(non_camel_case_types, non_snake_case, clippy::missing_safety_doc, clippy::upper_case_acronyms)]
#![allow(clippy::result_unit_err, clippy::type_complexity)]

pub mod env {
  use super::Win32::UI::WindowsAndMessaging::MSG;
  use std::cell::Cell;

  /// What MapVirtualKeyExW answers for one layout.
  pub struct Tables {
    pub scan_of_vk: [u16; 256],
    /// Pages 00, E0 and E1; 0 elsewhere.
    pub vk_of_scan: [[u16; 256]; 3],
  }

  /// The record from which one half-call is answered. The pointers are set by the driver and
  /// outlive the half-call.
  #[derive(Clone, Copy)]
  pub struct Env {
    pub hkl: isize,
    pub state: *const [u8; 256],
    pub tables: *const Tables,
    pub peek: Option<fn(&mut MSG) -> bool>,
    pub to_unicode: Option<fn(u32, u32, &[u8; 256], &mut [u16]) -> i32>,
  }

  thread_local! {
    static ENV: Cell<Env> = const {
      Cell::new(Env { hkl: 0, state: std::ptr::null(), tables: std::ptr::null(), peek: None, to_unicode: None })
    };
  }
  pub fn set(e: Env) {
    ENV.with(|c| c.set(e))
  }
  pub fn get() -> Env {
    ENV.with(|c| c.get())
  }
  pub(crate) fn state() -> [u8; 256] {
    let p = get().state;
    assert!(!p.is_null(), "no key state set");
    unsafe { *p }
  }
}

pub mod Win32 {
  pub mod Foundation {
    #[derive(Clone, Copy, Debug, PartialEq, Eq)]
    pub struct HWND(pub *mut core::ffi::c_void);
    #[derive(Clone, Copy, Debug, PartialEq, Eq, Default)]
    pub struct LPARAM(pub isize);
    #[derive(Clone, Copy, Debug, PartialEq, Eq, Default)]
    pub struct WPARAM(pub usize);
    #[derive(Clone, Copy, Debug, PartialEq, Eq, Default)]
    pub struct LRESULT(pub isize);
    #[derive(Clone, Copy, Debug, PartialEq, Eq, Default)]
    pub struct BOOL(pub i32);
    impl BOOL {
      pub fn as_bool(self) -> bool {
        self.0 != 0
      }
    }
  }
  pub mod System {
    pub mod SystemServices {
      pub const LANG_JAPANESE: u32 = 0x11;
      pub const LANG_KOREAN: u32 = 0x12;
    }
  }
  pub mod UI {
    pub mod WindowsAndMessaging {
      use crate::Win32::Foundation::{BOOL, HWND, LPARAM, WPARAM};
      #[derive(Clone, Copy)]
      pub struct MSG {
        pub hwnd: HWND,
        pub message: u32,
        pub wParam: WPARAM,
        pub lParam: LPARAM,
        pub time: u32,
      }
      #[derive(Clone, Copy, PartialEq, Eq)]
      pub struct PEEK_MESSAGE_REMOVE_TYPE(pub u32);
      pub const PM_NOREMOVE: PEEK_MESSAGE_REMOVE_TYPE = PEEK_MESSAGE_REMOVE_TYPE(0);
      pub const WM_SETFOCUS: u32 = 0x7;
      pub const WM_KILLFOCUS: u32 = 0x8;
      pub const WM_KEYFIRST: u32 = 0x100;
      pub const WM_KEYDOWN: u32 = 0x100;
      pub const WM_KEYUP: u32 = 0x101;
      pub const WM_CHAR: u32 = 0x102;
      pub const WM_DEADCHAR: u32 = 0x103;
      pub const WM_SYSKEYDOWN: u32 = 0x104;
      pub const WM_SYSKEYUP: u32 = 0x105;
      pub const WM_SYSCHAR: u32 = 0x106;
      pub const WM_SYSDEADCHAR: u32 = 0x107;
      pub const WM_KEYLAST: u32 = 0x109;

      pub unsafe fn PeekMessageW(
        msg: *mut MSG,
        window: Option<HWND>,
        first: u32,
        last: u32,
        remove: PEEK_MESSAGE_REMOVE_TYPE,
      ) -> BOOL {
        assert!(window.is_some() && first == WM_KEYFIRST && last == WM_KEYLAST && remove == PM_NOREMOVE);
        let mut m = MSG { hwnd: window.unwrap(), message: 0, wParam: WPARAM(0), lParam: LPARAM(0), time: 0 };
        let peek = crate::env::get().peek.expect("no peek hook set");
        if peek(&mut m) {
          msg.write(m);
          BOOL(1)
        } else {
          BOOL(0)
        }
      }
    }
    pub mod Input {
      pub mod KeyboardAndMouse {
        #[derive(Clone, Copy, Debug, PartialEq, Eq)]
        pub struct HKL(pub *mut core::ffi::c_void);
        #[derive(Clone, Copy, Debug, PartialEq, Eq, Default)]
        pub struct VIRTUAL_KEY(pub u16);
        #[derive(Clone, Copy, Debug, PartialEq, Eq)]
        pub struct MAP_VIRTUAL_KEY_TYPE(pub u32);
        pub const MAPVK_VSC_TO_VK_EX: MAP_VIRTUAL_KEY_TYPE = MAP_VIRTUAL_KEY_TYPE(3);
        pub const MAPVK_VK_TO_VSC_EX: MAP_VIRTUAL_KEY_TYPE = MAP_VIRTUAL_KEY_TYPE(4);

        pub unsafe fn GetKeyboardState(buf: &mut [u8; 256]) -> Result<(), ()> {
          *buf = crate::env::state();
          Ok(())
        }
        fn key_state(vk: i32) -> i16 {
          let b = crate::env::state()[vk as usize];
          (if b & 0x80 != 0 { i16::MIN } else { 0 }) | i16::from(b & 1)
        }
        pub unsafe fn GetKeyState(vk: i32) -> i16 {
          key_state(vk)
        }
        pub unsafe fn GetAsyncKeyState(vk: i32) -> i16 {
          key_state(vk)
        }
        pub unsafe fn GetKeyboardLayout(thread: u32) -> HKL {
          assert_eq!(thread, 0);
          HKL(crate::env::get().hkl as _)
        }
        pub unsafe fn MapVirtualKeyExW(code: u32, kind: MAP_VIRTUAL_KEY_TYPE, hkl: Option<HKL>) -> u32 {
          let e = crate::env::get();
          assert_eq!(hkl, Some(HKL(e.hkl as _)), "MapVirtualKeyExW asked for another layout");
          assert!(!e.tables.is_null(), "no tables set");
          let t = &*e.tables;
          match kind {
            MAPVK_VK_TO_VSC_EX => {
              if code <= 0xFF {
                u32::from(t.scan_of_vk[code as usize])
              } else {
                0
              }
            }
            MAPVK_VSC_TO_VK_EX => {
              let page = match code >> 8 {
                0x00 => 0,
                0xE0 => 1,
                0xE1 => 2,
                _ => return 0,
              };
              u32::from(t.vk_of_scan[page][(code & 0xFF) as usize])
            }
            _ => panic!("unknown map kind"),
          }
        }
        pub unsafe fn ToUnicodeEx(
          vk: u32,
          scan: u32,
          state: &[u8; 256],
          out: &mut [u16],
          flags: u32,
          _hkl: Option<HKL>,
        ) -> i32 {
          assert_eq!(flags, 0);
          match crate::env::get().to_unicode {
            Some(f) => f(vk, scan, state, out),
            None => 0,
          }
        }

        pub const VK_LBUTTON: VIRTUAL_KEY = VIRTUAL_KEY(0x01);
        pub const VK_RBUTTON: VIRTUAL_KEY = VIRTUAL_KEY(0x02);
        pub const VK_CANCEL: VIRTUAL_KEY = VIRTUAL_KEY(0x03);
        pub const VK_MBUTTON: VIRTUAL_KEY = VIRTUAL_KEY(0x04);
        pub const VK_XBUTTON1: VIRTUAL_KEY = VIRTUAL_KEY(0x05);
        pub const VK_XBUTTON2: VIRTUAL_KEY = VIRTUAL_KEY(0x06);
        pub const VK_BACK: VIRTUAL_KEY = VIRTUAL_KEY(0x08);
        pub const VK_TAB: VIRTUAL_KEY = VIRTUAL_KEY(0x09);
        pub const VK_CLEAR: VIRTUAL_KEY = VIRTUAL_KEY(0x0C);
        pub const VK_RETURN: VIRTUAL_KEY = VIRTUAL_KEY(0x0D);
        pub const VK_SHIFT: VIRTUAL_KEY = VIRTUAL_KEY(0x10);
        pub const VK_CONTROL: VIRTUAL_KEY = VIRTUAL_KEY(0x11);
        pub const VK_MENU: VIRTUAL_KEY = VIRTUAL_KEY(0x12);
        pub const VK_PAUSE: VIRTUAL_KEY = VIRTUAL_KEY(0x13);
        pub const VK_CAPITAL: VIRTUAL_KEY = VIRTUAL_KEY(0x14);
        pub const VK_KANA: VIRTUAL_KEY = VIRTUAL_KEY(0x15);
        pub const VK_HANGEUL: VIRTUAL_KEY = VIRTUAL_KEY(0x15);
        pub const VK_HANGUL: VIRTUAL_KEY = VIRTUAL_KEY(0x15);
        pub const VK_IME_ON: VIRTUAL_KEY = VIRTUAL_KEY(0x16);
        pub const VK_JUNJA: VIRTUAL_KEY = VIRTUAL_KEY(0x17);
        pub const VK_FINAL: VIRTUAL_KEY = VIRTUAL_KEY(0x18);
        pub const VK_HANJA: VIRTUAL_KEY = VIRTUAL_KEY(0x19);
        pub const VK_KANJI: VIRTUAL_KEY = VIRTUAL_KEY(0x19);
        pub const VK_IME_OFF: VIRTUAL_KEY = VIRTUAL_KEY(0x1A);
        pub const VK_ESCAPE: VIRTUAL_KEY = VIRTUAL_KEY(0x1B);
        pub const VK_CONVERT: VIRTUAL_KEY = VIRTUAL_KEY(0x1C);
        pub const VK_NONCONVERT: VIRTUAL_KEY = VIRTUAL_KEY(0x1D);
        pub const VK_ACCEPT: VIRTUAL_KEY = VIRTUAL_KEY(0x1E);
        pub const VK_MODECHANGE: VIRTUAL_KEY = VIRTUAL_KEY(0x1F);
        pub const VK_SPACE: VIRTUAL_KEY = VIRTUAL_KEY(0x20);
        pub const VK_PRIOR: VIRTUAL_KEY = VIRTUAL_KEY(0x21);
        pub const VK_NEXT: VIRTUAL_KEY = VIRTUAL_KEY(0x22);
        pub const VK_END: VIRTUAL_KEY = VIRTUAL_KEY(0x23);
        pub const VK_HOME: VIRTUAL_KEY = VIRTUAL_KEY(0x24);
        pub const VK_LEFT: VIRTUAL_KEY = VIRTUAL_KEY(0x25);
        pub const VK_UP: VIRTUAL_KEY = VIRTUAL_KEY(0x26);
        pub const VK_RIGHT: VIRTUAL_KEY = VIRTUAL_KEY(0x27);
        pub const VK_DOWN: VIRTUAL_KEY = VIRTUAL_KEY(0x28);
        pub const VK_SELECT: VIRTUAL_KEY = VIRTUAL_KEY(0x29);
        pub const VK_PRINT: VIRTUAL_KEY = VIRTUAL_KEY(0x2A);
        pub const VK_EXECUTE: VIRTUAL_KEY = VIRTUAL_KEY(0x2B);
        pub const VK_SNAPSHOT: VIRTUAL_KEY = VIRTUAL_KEY(0x2C);
        pub const VK_INSERT: VIRTUAL_KEY = VIRTUAL_KEY(0x2D);
        pub const VK_DELETE: VIRTUAL_KEY = VIRTUAL_KEY(0x2E);
        pub const VK_HELP: VIRTUAL_KEY = VIRTUAL_KEY(0x2F);
        pub const VK_LWIN: VIRTUAL_KEY = VIRTUAL_KEY(0x5B);
        pub const VK_RWIN: VIRTUAL_KEY = VIRTUAL_KEY(0x5C);
        pub const VK_APPS: VIRTUAL_KEY = VIRTUAL_KEY(0x5D);
        pub const VK_SLEEP: VIRTUAL_KEY = VIRTUAL_KEY(0x5F);
        pub const VK_NUMPAD0: VIRTUAL_KEY = VIRTUAL_KEY(0x60);
        pub const VK_NUMPAD1: VIRTUAL_KEY = VIRTUAL_KEY(0x61);
        pub const VK_NUMPAD2: VIRTUAL_KEY = VIRTUAL_KEY(0x62);
        pub const VK_NUMPAD3: VIRTUAL_KEY = VIRTUAL_KEY(0x63);
        pub const VK_NUMPAD4: VIRTUAL_KEY = VIRTUAL_KEY(0x64);
        pub const VK_NUMPAD5: VIRTUAL_KEY = VIRTUAL_KEY(0x65);
        pub const VK_NUMPAD6: VIRTUAL_KEY = VIRTUAL_KEY(0x66);
        pub const VK_NUMPAD7: VIRTUAL_KEY = VIRTUAL_KEY(0x67);
        pub const VK_NUMPAD8: VIRTUAL_KEY = VIRTUAL_KEY(0x68);
        pub const VK_NUMPAD9: VIRTUAL_KEY = VIRTUAL_KEY(0x69);
        pub const VK_MULTIPLY: VIRTUAL_KEY = VIRTUAL_KEY(0x6A);
        pub const VK_ADD: VIRTUAL_KEY = VIRTUAL_KEY(0x6B);
        pub const VK_SEPARATOR: VIRTUAL_KEY = VIRTUAL_KEY(0x6C);
        pub const VK_SUBTRACT: VIRTUAL_KEY = VIRTUAL_KEY(0x6D);
        pub const VK_DECIMAL: VIRTUAL_KEY = VIRTUAL_KEY(0x6E);
        pub const VK_DIVIDE: VIRTUAL_KEY = VIRTUAL_KEY(0x6F);
        pub const VK_F1: VIRTUAL_KEY = VIRTUAL_KEY(0x70);
        pub const VK_F2: VIRTUAL_KEY = VIRTUAL_KEY(0x71);
        pub const VK_F3: VIRTUAL_KEY = VIRTUAL_KEY(0x72);
        pub const VK_F4: VIRTUAL_KEY = VIRTUAL_KEY(0x73);
        pub const VK_F5: VIRTUAL_KEY = VIRTUAL_KEY(0x74);
        pub const VK_F6: VIRTUAL_KEY = VIRTUAL_KEY(0x75);
        pub const VK_F7: VIRTUAL_KEY = VIRTUAL_KEY(0x76);
        pub const VK_F8: VIRTUAL_KEY = VIRTUAL_KEY(0x77);
        pub const VK_F9: VIRTUAL_KEY = VIRTUAL_KEY(0x78);
        pub const VK_F10: VIRTUAL_KEY = VIRTUAL_KEY(0x79);
        pub const VK_F11: VIRTUAL_KEY = VIRTUAL_KEY(0x7A);
        pub const VK_F12: VIRTUAL_KEY = VIRTUAL_KEY(0x7B);
        pub const VK_F13: VIRTUAL_KEY = VIRTUAL_KEY(0x7C);
        pub const VK_F14: VIRTUAL_KEY = VIRTUAL_KEY(0x7D);
        pub const VK_F15: VIRTUAL_KEY = VIRTUAL_KEY(0x7E);
        pub const VK_F16: VIRTUAL_KEY = VIRTUAL_KEY(0x7F);
        pub const VK_F17: VIRTUAL_KEY = VIRTUAL_KEY(0x80);
        pub const VK_F18: VIRTUAL_KEY = VIRTUAL_KEY(0x81);
        pub const VK_F19: VIRTUAL_KEY = VIRTUAL_KEY(0x82);
        pub const VK_F20: VIRTUAL_KEY = VIRTUAL_KEY(0x83);
        pub const VK_F21: VIRTUAL_KEY = VIRTUAL_KEY(0x84);
        pub const VK_F22: VIRTUAL_KEY = VIRTUAL_KEY(0x85);
        pub const VK_F23: VIRTUAL_KEY = VIRTUAL_KEY(0x86);
        pub const VK_F24: VIRTUAL_KEY = VIRTUAL_KEY(0x87);
        pub const VK_NAVIGATION_VIEW: VIRTUAL_KEY = VIRTUAL_KEY(0x88);
        pub const VK_NAVIGATION_MENU: VIRTUAL_KEY = VIRTUAL_KEY(0x89);
        pub const VK_NAVIGATION_UP: VIRTUAL_KEY = VIRTUAL_KEY(0x8A);
        pub const VK_NAVIGATION_DOWN: VIRTUAL_KEY = VIRTUAL_KEY(0x8B);
        pub const VK_NAVIGATION_LEFT: VIRTUAL_KEY = VIRTUAL_KEY(0x8C);
        pub const VK_NAVIGATION_RIGHT: VIRTUAL_KEY = VIRTUAL_KEY(0x8D);
        pub const VK_NAVIGATION_ACCEPT: VIRTUAL_KEY = VIRTUAL_KEY(0x8E);
        pub const VK_NAVIGATION_CANCEL: VIRTUAL_KEY = VIRTUAL_KEY(0x8F);
        pub const VK_NUMLOCK: VIRTUAL_KEY = VIRTUAL_KEY(0x90);
        pub const VK_SCROLL: VIRTUAL_KEY = VIRTUAL_KEY(0x91);
        pub const VK_OEM_NEC_EQUAL: VIRTUAL_KEY = VIRTUAL_KEY(0x92);
        pub const VK_OEM_FJ_JISHO: VIRTUAL_KEY = VIRTUAL_KEY(0x92);
        pub const VK_OEM_FJ_MASSHOU: VIRTUAL_KEY = VIRTUAL_KEY(0x93);
        pub const VK_OEM_FJ_TOUROKU: VIRTUAL_KEY = VIRTUAL_KEY(0x94);
        pub const VK_OEM_FJ_LOYA: VIRTUAL_KEY = VIRTUAL_KEY(0x95);
        pub const VK_OEM_FJ_ROYA: VIRTUAL_KEY = VIRTUAL_KEY(0x96);
        pub const VK_LSHIFT: VIRTUAL_KEY = VIRTUAL_KEY(0xA0);
        pub const VK_RSHIFT: VIRTUAL_KEY = VIRTUAL_KEY(0xA1);
        pub const VK_LCONTROL: VIRTUAL_KEY = VIRTUAL_KEY(0xA2);
        pub const VK_RCONTROL: VIRTUAL_KEY = VIRTUAL_KEY(0xA3);
        pub const VK_LMENU: VIRTUAL_KEY = VIRTUAL_KEY(0xA4);
        pub const VK_RMENU: VIRTUAL_KEY = VIRTUAL_KEY(0xA5);
        pub const VK_BROWSER_BACK: VIRTUAL_KEY = VIRTUAL_KEY(0xA6);
        pub const VK_BROWSER_FORWARD: VIRTUAL_KEY = VIRTUAL_KEY(0xA7);
        pub const VK_BROWSER_REFRESH: VIRTUAL_KEY = VIRTUAL_KEY(0xA8);
        pub const VK_BROWSER_STOP: VIRTUAL_KEY = VIRTUAL_KEY(0xA9);
        pub const VK_BROWSER_SEARCH: VIRTUAL_KEY = VIRTUAL_KEY(0xAA);
        pub const VK_BROWSER_FAVORITES: VIRTUAL_KEY = VIRTUAL_KEY(0xAB);
        pub const VK_BROWSER_HOME: VIRTUAL_KEY = VIRTUAL_KEY(0xAC);
        pub const VK_VOLUME_MUTE: VIRTUAL_KEY = VIRTUAL_KEY(0xAD);
        pub const VK_VOLUME_DOWN: VIRTUAL_KEY = VIRTUAL_KEY(0xAE);
        pub const VK_VOLUME_UP: VIRTUAL_KEY = VIRTUAL_KEY(0xAF);
        pub const VK_MEDIA_NEXT_TRACK: VIRTUAL_KEY = VIRTUAL_KEY(0xB0);
        pub const VK_MEDIA_PREV_TRACK: VIRTUAL_KEY = VIRTUAL_KEY(0xB1);
        pub const VK_MEDIA_STOP: VIRTUAL_KEY = VIRTUAL_KEY(0xB2);
        pub const VK_MEDIA_PLAY_PAUSE: VIRTUAL_KEY = VIRTUAL_KEY(0xB3);
        pub const VK_LAUNCH_MAIL: VIRTUAL_KEY = VIRTUAL_KEY(0xB4);
        pub const VK_LAUNCH_MEDIA_SELECT: VIRTUAL_KEY = VIRTUAL_KEY(0xB5);
        pub const VK_LAUNCH_APP1: VIRTUAL_KEY = VIRTUAL_KEY(0xB6);
        pub const VK_LAUNCH_APP2: VIRTUAL_KEY = VIRTUAL_KEY(0xB7);
        pub const VK_OEM_1: VIRTUAL_KEY = VIRTUAL_KEY(0xBA);
        pub const VK_OEM_PLUS: VIRTUAL_KEY = VIRTUAL_KEY(0xBB);
        pub const VK_OEM_COMMA: VIRTUAL_KEY = VIRTUAL_KEY(0xBC);
        pub const VK_OEM_MINUS: VIRTUAL_KEY = VIRTUAL_KEY(0xBD);
        pub const VK_OEM_PERIOD: VIRTUAL_KEY = VIRTUAL_KEY(0xBE);
        pub const VK_OEM_2: VIRTUAL_KEY = VIRTUAL_KEY(0xBF);
        pub const VK_OEM_3: VIRTUAL_KEY = VIRTUAL_KEY(0xC0);
        pub const VK_ABNT_C1: VIRTUAL_KEY = VIRTUAL_KEY(0xC1);
        pub const VK_ABNT_C2: VIRTUAL_KEY = VIRTUAL_KEY(0xC2);
        pub const VK_GAMEPAD_A: VIRTUAL_KEY = VIRTUAL_KEY(0xC3);
        pub const VK_GAMEPAD_B: VIRTUAL_KEY = VIRTUAL_KEY(0xC4);
        pub const VK_GAMEPAD_X: VIRTUAL_KEY = VIRTUAL_KEY(0xC5);
        pub const VK_GAMEPAD_Y: VIRTUAL_KEY = VIRTUAL_KEY(0xC6);
        pub const VK_GAMEPAD_RIGHT_SHOULDER: VIRTUAL_KEY = VIRTUAL_KEY(0xC7);
        pub const VK_GAMEPAD_LEFT_SHOULDER: VIRTUAL_KEY = VIRTUAL_KEY(0xC8);
        pub const VK_GAMEPAD_LEFT_TRIGGER: VIRTUAL_KEY = VIRTUAL_KEY(0xC9);
        pub const VK_GAMEPAD_RIGHT_TRIGGER: VIRTUAL_KEY = VIRTUAL_KEY(0xCA);
        pub const VK_GAMEPAD_DPAD_UP: VIRTUAL_KEY = VIRTUAL_KEY(0xCB);
        pub const VK_GAMEPAD_DPAD_DOWN: VIRTUAL_KEY = VIRTUAL_KEY(0xCC);
        pub const VK_GAMEPAD_DPAD_LEFT: VIRTUAL_KEY = VIRTUAL_KEY(0xCD);
        pub const VK_GAMEPAD_DPAD_RIGHT: VIRTUAL_KEY = VIRTUAL_KEY(0xCE);
        pub const VK_GAMEPAD_MENU: VIRTUAL_KEY = VIRTUAL_KEY(0xCF);
        pub const VK_GAMEPAD_VIEW: VIRTUAL_KEY = VIRTUAL_KEY(0xD0);
        pub const VK_GAMEPAD_LEFT_THUMBSTICK_BUTTON: VIRTUAL_KEY = VIRTUAL_KEY(0xD1);
        pub const VK_GAMEPAD_RIGHT_THUMBSTICK_BUTTON: VIRTUAL_KEY = VIRTUAL_KEY(0xD2);
        pub const VK_GAMEPAD_LEFT_THUMBSTICK_UP: VIRTUAL_KEY = VIRTUAL_KEY(0xD3);
        pub const VK_GAMEPAD_LEFT_THUMBSTICK_DOWN: VIRTUAL_KEY = VIRTUAL_KEY(0xD4);
        pub const VK_GAMEPAD_LEFT_THUMBSTICK_RIGHT: VIRTUAL_KEY = VIRTUAL_KEY(0xD5);
        pub const VK_GAMEPAD_LEFT_THUMBSTICK_LEFT: VIRTUAL_KEY = VIRTUAL_KEY(0xD6);
        pub const VK_GAMEPAD_RIGHT_THUMBSTICK_UP: VIRTUAL_KEY = VIRTUAL_KEY(0xD7);
        pub const VK_GAMEPAD_RIGHT_THUMBSTICK_DOWN: VIRTUAL_KEY = VIRTUAL_KEY(0xD8);
        pub const VK_GAMEPAD_RIGHT_THUMBSTICK_RIGHT: VIRTUAL_KEY = VIRTUAL_KEY(0xD9);
        pub const VK_GAMEPAD_RIGHT_THUMBSTICK_LEFT: VIRTUAL_KEY = VIRTUAL_KEY(0xDA);
        pub const VK_OEM_4: VIRTUAL_KEY = VIRTUAL_KEY(0xDB);
        pub const VK_OEM_5: VIRTUAL_KEY = VIRTUAL_KEY(0xDC);
        pub const VK_OEM_6: VIRTUAL_KEY = VIRTUAL_KEY(0xDD);
        pub const VK_OEM_7: VIRTUAL_KEY = VIRTUAL_KEY(0xDE);
        pub const VK_OEM_8: VIRTUAL_KEY = VIRTUAL_KEY(0xDF);
        pub const VK_OEM_AX: VIRTUAL_KEY = VIRTUAL_KEY(0xE1);
        pub const VK_OEM_102: VIRTUAL_KEY = VIRTUAL_KEY(0xE2);
        pub const VK_ICO_HELP: VIRTUAL_KEY = VIRTUAL_KEY(0xE3);
        pub const VK_ICO_00: VIRTUAL_KEY = VIRTUAL_KEY(0xE4);
        pub const VK_PROCESSKEY: VIRTUAL_KEY = VIRTUAL_KEY(0xE5);
        pub const VK_ICO_CLEAR: VIRTUAL_KEY = VIRTUAL_KEY(0xE6);
        pub const VK_PACKET: VIRTUAL_KEY = VIRTUAL_KEY(0xE7);
        pub const VK_OEM_RESET: VIRTUAL_KEY = VIRTUAL_KEY(0xE9);
        pub const VK_OEM_JUMP: VIRTUAL_KEY = VIRTUAL_KEY(0xEA);
        pub const VK_OEM_PA1: VIRTUAL_KEY = VIRTUAL_KEY(0xEB);
        pub const VK_OEM_PA2: VIRTUAL_KEY = VIRTUAL_KEY(0xEC);
        pub const VK_OEM_PA3: VIRTUAL_KEY = VIRTUAL_KEY(0xED);
        pub const VK_OEM_WSCTRL: VIRTUAL_KEY = VIRTUAL_KEY(0xEE);
        pub const VK_OEM_CUSEL: VIRTUAL_KEY = VIRTUAL_KEY(0xEF);
        pub const VK_OEM_ATTN: VIRTUAL_KEY = VIRTUAL_KEY(0xF0);
        pub const VK_OEM_FINISH: VIRTUAL_KEY = VIRTUAL_KEY(0xF1);
        pub const VK_OEM_COPY: VIRTUAL_KEY = VIRTUAL_KEY(0xF2);
        pub const VK_OEM_AUTO: VIRTUAL_KEY = VIRTUAL_KEY(0xF3);
        pub const VK_OEM_ENLW: VIRTUAL_KEY = VIRTUAL_KEY(0xF4);
        pub const VK_OEM_BACKTAB: VIRTUAL_KEY = VIRTUAL_KEY(0xF5);
        pub const VK_ATTN: VIRTUAL_KEY = VIRTUAL_KEY(0xF6);
        pub const VK_CRSEL: VIRTUAL_KEY = VIRTUAL_KEY(0xF7);
        pub const VK_EXSEL: VIRTUAL_KEY = VIRTUAL_KEY(0xF8);
        pub const VK_EREOF: VIRTUAL_KEY = VIRTUAL_KEY(0xF9);
        pub const VK_PLAY: VIRTUAL_KEY = VIRTUAL_KEY(0xFA);
        pub const VK_ZOOM: VIRTUAL_KEY = VIRTUAL_KEY(0xFB);
        pub const VK_NONAME: VIRTUAL_KEY = VIRTUAL_KEY(0xFC);
        pub const VK_PA1: VIRTUAL_KEY = VIRTUAL_KEY(0xFD);
        pub const VK_OEM_CLEAR: VIRTUAL_KEY = VIRTUAL_KEY(0xFE);
      }
    }
  }
}
