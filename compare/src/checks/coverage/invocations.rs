//! Features of single invocations: token instructions, native actions, swaps.

use super::{form_feature, Coverage, TOKEN_FORMS};
use crate::generate::swaps::{Form, FORMS};
use crate::generate::Case;
use crate::oracle::Examined;
use original::facts::{Action, Invocation};
use original::ids::{CLMM, DLMM, ORCA, PUMPFUN, PUMPSWAP, WRAPPED_SOL};

impl Coverage {
    pub fn note_token(&mut self, invocation: &Invocation) {
        let [spl_token, token_2022, ..] = original::ids();
        let (data, accounts) = (&invocation.data, invocation.accounts.len());
        if invocation.program == [0; 32] && invocation.resolved {
            self.note("System program");
            if data.starts_with(&[2, 0, 0, 0]) {
                self.note(&format!("System transfer of {} bytes", data.len()));
            }
        }
        if invocation.program != spl_token && invocation.program != token_2022 {
            return;
        }
        for (tag, length, least) in TOKEN_FORMS {
            if data.first() != Some(&tag) {
                continue;
            }
            self.note(&format!("tag {tag} with {} bytes", data.len()));
            if data.len() >= length {
                self.note(&format!("tag {tag} with {} accounts", accounts.min(least + 2)));
            }
        }
        if let [26, second, ..] = data[..] {
            self.note(&format!("tag 26 with second byte {second}"));
        }
        if let Some(transfer) = &invocation.transfer {
            let program = if invocation.program == spl_token { "SPL Token" } else { "Token-2022" };
            match data[0] {
                3 => self.note(&format!("plain transfer of {program}")),
                12 => self.note(&format!("checked transfer of {program}")),
                _ => self.note("with-fee transfer"),
            }
            self.note_if("transfer with a mint", transfer.mint.is_some());
            self.note_if("transfer without a mint", transfer.mint.is_none());
            let same = transfer.source == transfer.destination;
            self.note_if("transfer to the same account", same);
        }
    }

    pub fn note_native(&mut self, examined: &Examined, invocation: &Invocation) {
        if let Some(native) = &invocation.native {
            self.note(match native.action {
                Action::Fund { .. } => "fund",
                Action::Sync => "sync",
                Action::Close { .. } => "close",
            });
            let filled = examined.mints.marks[&native.account] > 0;
            self.note_if("native action on a filled-in account", filled);
        }
        let [spl_token, token_2022, wrapped_sol, ..] = original::ids();
        let token = invocation.program == spl_token || invocation.program == token_2022;
        if token && invocation.data == [17] && invocation.native.is_none() {
            let keys = &examined.pack.keys;
            let target = invocation.accounts.first().and_then(|at| keys.get(usize::from(*at)));
            let mint = target.and_then(|row| examined.facts.mints.get(&row.key));
            let but_for = mint == Some(&wrapped_sol);
            self.note_if("sync stopped by an account out of range", but_for);
        }
    }

    pub fn note_swap(&mut self, case: &Case, examined: &Examined, invocation: &Invocation) {
        let names = case.names[..].try_into().expect("names of an examined pack have 88 bytes");
        let has_leg = invocation.leg.is_some();
        let (accounts, data) = (invocation.accounts.len(), &invocation.data);
        for form in FORMS.iter() {
            if invocation.program != form.id() || !data.starts_with(&form.prefix(names)) {
                continue;
            }
            let enough = data.len() >= form.data;
            if accounts + 1 == form.floor && enough {
                self.note(&form_feature(form, "one account below its floor"));
            }
            if data.len() + 1 == form.data && accounts >= form.floor {
                self.note(&form_feature(form, "one byte short"));
            }
            if accounts == form.floor && has_leg {
                self.note(&form_feature(form, "at its floor: leg"));
            }
            if data.len() == form.data && has_leg {
                self.note(&form_feature(form, "least data: leg"));
            }
            if accounts == form.floor + 256 && has_leg {
                self.note(&form_feature(form, "256 accounts above its floor: leg"));
            }
            if form.program == PUMPSWAP && enough {
                self.note(&format!("PumpSwap with {accounts} accounts"));
            }
            self.note_bytes(form, examined, invocation);
        }
        if let Some(leg) = invocation.leg {
            let leg = &examined.facts.legs[leg];
            let protocol = leg.protocol;
            self.note(&format!("protocol {protocol}, input mint {}", leg.input_mint.is_some()));
            self.note(&format!("protocol {protocol}, output mint {}", leg.output_mint.is_some()));
            self.note(&format!("protocol {protocol}, exact in {}", leg.exact_in));
            self.note_if("leg mode 1", leg.mode == 1);
            self.note_if("leg mode 2", leg.mode == 2);
            self.note_if("graduated", leg.graduated);
            self.note_if("graduated zero pool", leg.graduated && leg.pool == [0; 32]);
            self.note_if("leg with a zero pool", leg.pool == [0; 32]);
            self.note_if("leg with equal token accounts", leg.input == leg.output);
        }
    }

    /// Truth values and slices behind the amounts of a swap.
    fn note_bytes(&mut self, form: &Form, examined: &Examined, invocation: &Invocation) {
        let (accounts, data) = (invocation.accounts.len(), &invocation.data);
        let has_leg = invocation.leg.is_some();
        let over = |at: usize| data.get(at).is_some_and(|byte| *byte > 1);
        let whole = accounts >= form.floor && data.len() >= form.data;
        match form.program {
            CLMM => self.note_if("CLMM byte 40 over 1", whole && over(40)),
            ORCA => {
                self.note_if("Orca byte 40 over 1", whole && over(40) && !over(41));
                self.note_if("Orca byte 41 over 1", whole && over(41) && !over(40));
            }
            PUMPSWAP => {
                let counted = accounts == 17 || accounts >= 21;
                let sell = form.name.contains("sell");
                let passed = "leg for a sell with byte 24 over 1";
                self.note_if(passed, sell && over(24) && has_leg);
                let stopped = "no leg for a buy with byte 24 over 1";
                self.note_if(stopped, !sell && over(24) && counted && !has_leg);
            }
            PUMPFUN => {
                let quote = invocation.accounts.get(2).map(|at| usize::from(*at));
                let quote = quote.and_then(|at| examined.pack.keys.get(at));
                let wrapped_sol = quote.is_some_and(|row| row.key == original::ids()[WRAPPED_SOL]);
                self.note_if("PumpFun with wrapped SOL as quote", has_leg && wrapped_sol);
            }
            DLMM if form.floor == 16 && data.get(24).is_some_and(|count| *count > 0) => {
                self.note_if("slices with a leg", has_leg);
                self.note_if("slices without a leg", whole && !has_leg);
            }
            _ => {}
        }
    }
}
