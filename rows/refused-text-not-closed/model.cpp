cout << "b << endl;
