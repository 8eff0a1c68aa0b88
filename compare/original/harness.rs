// What follows is the harness of the comparison, not part of the original.

/// Runs the original's functions in its own order and hands their answers out as plain values.
pub fn facts(
    transaction: &Transaction,
    meta: &TransactionStatusMeta,
    graduated: &[Pubkey],
) -> crate::facts::Facts {
    let keys = transaction_keys(transaction, meta);
    let invocations = transaction_invocations(transaction, meta, &keys);
    let mints = token_mints_from_invocations(meta, &keys, &invocations);
    let mut legs = Vec::new();
    let analysis = invocation_analysis(&invocations, &keys, &mints, graduated, &mut legs);
    crate::facts::Facts {
        invocations: invocations
            .iter()
            .zip(analysis)
            .map(|(ix, analysis)| crate::facts::Invocation {
                outer: ix.position.outer_index,
                inner: ix.position.inner_index,
                height: ix.position.stack_height,
                program: ix.program.0,
                resolved: ix.program_resolved,
                accounts: ix.accounts.to_vec(),
                data: ix.data.to_vec(),
                end: analysis.descendant_end,
                transfers_inside: analysis.has_token_transfers,
                swaps_inside: analysis.has_known_swap_descendants,
                skip_route: analysis.skip_route,
                transfer: analysis.transfer.map(plain_transfer),
                leg: analysis.swap_index,
                native: native_action(ix, &keys, &mints).map(plain_native),
            })
            .collect(),
        legs: legs.into_iter().map(plain_leg).collect(),
        mints: mints.into_iter().map(|(account, mint)| (account.0, mint.0)).collect(),
    }
}

/// Runs the original's functions in its own order and drops their answers: the work that is timed.
pub fn work(transaction: &Transaction, meta: &TransactionStatusMeta, graduated: &[Pubkey]) {
    let keys = transaction_keys(transaction, meta);
    let invocations = transaction_invocations(transaction, meta, &keys);
    let mints = token_mints_from_invocations(meta, &keys, &invocations);
    let mut legs = Vec::new();
    let analysis = invocation_analysis(&invocations, &keys, &mints, graduated, &mut legs);
    let natives: Vec<_> =
        invocations.iter().filter_map(|ix| native_action(ix, &keys, &mints)).collect();
    std::hint::black_box((invocations.len(), mints, legs, analysis, natives));
}

/// The ids that this file keeps to itself.
pub fn route_ids() -> [Pubkey; 6] {
    [
        ROUTE_SPL_TOKEN,
        ROUTE_TOKEN_2022,
        ROUTE_WSOL,
        ROUTE_COMPUTE_BUDGET,
        ROUTE_ASSOCIATED_TOKEN,
        ROUTE_MEMO,
    ]
}

fn plain_transfer(transfer: RouteTokenTransfer) -> crate::facts::Transfer {
    crate::facts::Transfer {
        program: transfer.program.0,
        source: transfer.source.0,
        destination: transfer.destination.0,
        mint: transfer.mint.map(|mint| mint.0),
        amount: transfer.amount,
        fee: transfer.withheld_fee,
    }
}

fn plain_leg(leg: RouteSwapLeg) -> crate::facts::Leg {
    crate::facts::Leg {
        protocol: leg.protocol as u8 + 1,
        program: leg.program.0,
        pool: leg.pool.0,
        trader: leg.trader.0,
        input: leg.input_account.0,
        output: leg.output_account.0,
        input_mint: leg.input_mint.map(|mint| mint.0),
        output_mint: leg.output_mint.map(|mint| mint.0),
        exact_in: leg.amount_specified_is_input,
        amount: leg.specified_amount,
        threshold: leg.other_amount_threshold,
        mode: leg.stonkfun_mode.map_or(0, |mode| mode as u8 + 1),
        graduated: leg.stonkfun_graduated,
    }
}

fn plain_native(native: RouteNativeTokenAction) -> crate::facts::Native {
    crate::facts::Native {
        account: native.account.0,
        action: match native.action {
            NativeTokenAction::Fund { source, lamports } => {
                crate::facts::Action::Fund { source: source.0, lamports }
            }
            NativeTokenAction::SyncNative => crate::facts::Action::Sync,
            NativeTokenAction::Close { destination, authority } => {
                crate::facts::Action::Close { destination: destination.0, authority: authority.0 }
            }
        },
    }
}
