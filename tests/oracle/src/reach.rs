// The body of `atn::reach`, a child module of the copy: a public function for
// each of its private ones.

macro_rules! reach {
    ($($name:ident($($arg:ident: $kind:ty),*) -> $answer:ty;)*) => {
        $(pub fn $name($($arg: $kind),*) -> $answer {
            super::$name($($arg),*)
        })*
    };
}

reach! {
    x25_clear_cause(c: u8) -> Option<&'static str>;
    x25_reset_cause(c: u8) -> Option<&'static str>;
    x25_restart_cause(c: u8) -> Option<&'static str>;
    x25_diagnostic(d: u8) -> Option<&'static str>;
    esis_option_name(t: u8) -> &'static str;
    idrp_attr_name(t: u8) -> &'static str;
    idrp_pdu_type_name(t: u8) -> &'static str;
    idrp_error_code_name(c: u8) -> &'static str;
    idrp_error_subcode_name(code: u8, sub: u8) -> Option<&'static str>;
    clnp_option_name(t: u8) -> Option<&'static str>;
    atn_traffic_type_name(bit: u8) -> Option<&'static str>;
    atsc_class_name(bit: u8) -> Option<&'static str>;
    atn_subnet_name(s: u8) -> Option<&'static str>;
    atn_security_class_name(c: u8) -> Option<&'static str>;
    cotp_dr_reason(c: u8) -> Option<&'static str>;
    cotp_er_reject_cause(c: u8) -> Option<&'static str>;
    cotp_param_name(t: u8) -> Option<&'static str>;
    clnp_addresses(b: &[u8]) -> Option<(Vec<u8>, Vec<u8>)>;
    parse_esis(b: &[u8]) -> Value;
    parse_esis_options(b: &[u8]) -> Vec<Value>;
    parse_idrp(b: &[u8]) -> Value;
    parse_idrp_open(b: &[u8]) -> Option<Value>;
    parse_idrp_update(b: &[u8]) -> Option<Value>;
    decode_x25_compression(byte: u8) -> Value;
    parse_sndcf_field(b: &[u8]) -> Option<(Value, usize)>;
    parse_facilities(b: &[u8]) -> Vec<Value>;
    parse_atn_security_tag(name: u8, v: &[u8]) -> Value;
    parse_atn_security_label(b: &[u8]) -> Value;
    parse_clnp_options(b: &[u8]) -> Vec<Value>;
    parse_clnp(b: &[u8]) -> Option<Value>;
    parse_cotp_params(b: &[u8]) -> Vec<Value>;
    parse_cotp(b: &[u8]) -> Option<Value>;
}
