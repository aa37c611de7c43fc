"""The workbench: writes stores, explains them and draws them. Every verdict comes from the proved programs."""
