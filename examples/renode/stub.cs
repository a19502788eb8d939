// What CCan.cs uses of Renode, for its test alone: a stub that was written from memory, and not Renode's own source.
using System;

namespace Antmicro.Renode.Core
{
    public interface IPeripheral
    {
        void Reset();
    }

    public class GPIO
    {
        public void Set(bool value = true)
        {
            IsSet = value;
        }

        public bool IsSet { get; private set; }
    }
}

namespace Antmicro.Renode.Core.CAN
{
    public class CANMessageFrame
    {
        public CANMessageFrame(uint id, byte[] data, bool extendedFormat = false, bool remoteFrame = false, bool fdFormat = false,
            bool bitRateSwitch = false)
        {
            Id = id;
            Data = data;
            ExtendedFormat = extendedFormat;
            RemoteFrame = remoteFrame;
            FDFormat = fdFormat;
            BitRateSwitch = bitRateSwitch;
        }

        public uint Id { get; }
        public byte[] Data { get; }
        public bool ExtendedFormat { get; }
        public bool RemoteFrame { get; }
        public bool FDFormat { get; }
        public bool BitRateSwitch { get; }
    }
}

namespace Antmicro.Renode.Logging
{
    public enum LogLevel
    {
        Warning
    }

    public static class Logger
    {
        public static void Log(this Core.IPeripheral peripheral, LogLevel level, string message, params object[] values)
        {
            Lines++;
        }

        public static int Lines { get; private set; }
    }
}

namespace Antmicro.Renode.Peripherals.Bus
{
    public interface IKnownSize
    {
        long Size { get; }
    }

    public interface IWordPeripheral
    {
        ushort ReadWord(long offset);
        void WriteWord(long offset, ushort value);
    }

    public interface IDoubleWordPeripheral
    {
        uint ReadDoubleWord(long offset);
        void WriteDoubleWord(long offset, uint value);
    }
}

namespace Antmicro.Renode.Peripherals.CAN
{
    public interface ICAN : Core.IPeripheral
    {
        event Action<Core.CAN.CANMessageFrame> FrameSent;
        void OnFrameReceived(Core.CAN.CANMessageFrame message);
    }
}
