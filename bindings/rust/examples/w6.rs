//! Three nodes: two of them submit a frame in the same round. Prints what each call
//! answered, and what the nodes collect.

use kettlefrost::{operations, Bus, Operation, Refusal, Register, Round};

/// A bus with the registers of its nodes.
struct Session {
    bus: Bus,
    registers: Vec<Register>,
}

impl Session {
    fn start(count: u32) -> Result<Session, Refusal> {
        let bus = Bus::start(count)?;
        println!("start: {} nodes", bus.state().count);
        Ok(Session { bus, registers: vec![Register::new(); count as usize] })
    }

    fn submit(&mut self, node: u32, buffer: &[u8]) -> Result<(), Refusal> {
        self.bus.submit(node, buffer)?;
        self.registers[node as usize].enter(buffer)?;
        for operation in described(buffer) {
            println!("node {node} submits {operation}");
        }
        Ok(())
    }

    fn round(&mut self, number: u32) -> Result<(), Refusal> {
        match self.bus.round(None)? {
            Round::Idle => println!("round {number}: idle"),
            Round::Carried { sender, id, errored, age } => {
                let outcome = if errored { "errored" } else { "delivered" };
                println!("round {number}: node {sender} sent ID {id}, {outcome}, age {age}");
            }
            other => println!("round {number}: {other:?}"),
        }
        Ok(())
    }

    fn collect(&mut self, node: u32) -> Result<(), Refusal> {
        let buffer = self.bus.collect(node)?;
        self.registers[node as usize].read(&buffer)?;
        println!("node {node} collects {} bytes", buffer.len());
        for operation in described(&buffer) {
            println!("  {operation}");
        }
        Ok(())
    }

    fn print_open(&self) {
        for (node, register) in self.registers.iter().enumerate() {
            let ids: Vec<String> = register.open().iter().map(u32::to_string).collect();
            let open = if ids.is_empty() { "none".into() } else { ids.join(" ") };
            println!("open at node {node}: {open}");
        }
    }
}

/// The operations of a buffer, in words.
fn described(buffer: &[u8]) -> impl Iterator<Item = String> + '_ {
    operations(buffer).map(|read| match read {
        Ok(Operation::CanTransmit { id, data: [], .. }) => format!("CAN Transmit ID {id}"),
        Ok(Operation::CanTransmit { id, data, .. }) => {
            let bytes: Vec<String> = data.iter().map(|byte| format!("{byte:02X}")).collect();
            format!("CAN Transmit ID {id} data {}", bytes.join(" "))
        }
        Ok(Operation::Confirm { id }) => format!("Confirm ID {id}"),
        Ok(other) => format!("{other:?}"),
        Err(faulty) => faulty.to_string(),
    })
}

fn can_transmit(id: u32, data: &[u8]) -> Result<Vec<u8>, Refusal> {
    Operation::CanTransmit { id, ide: false, rtr: false, data }.encode()
}

fn main() -> Result<(), Refusal> {
    let mut session = Session::start(3)?;
    session.submit(0, &can_transmit(15, &[0xAA, 0xBB])?)?;
    session.submit(1, &can_transmit(16, &[])?)?;
    session.print_open();
    (1..=3).try_for_each(|number| session.round(number))?;
    (0..3).try_for_each(|node| session.collect(node))?;
    session.print_open();
    Ok(())
}
